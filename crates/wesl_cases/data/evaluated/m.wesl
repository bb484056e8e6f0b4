const scale = 3;
