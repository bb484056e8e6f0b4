const tile = 8;
