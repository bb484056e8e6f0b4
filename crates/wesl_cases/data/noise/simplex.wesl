const two = 22;
