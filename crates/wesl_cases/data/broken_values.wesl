const two = 2;

const two_again = two;

const ring = ring;
