import package::config::one;

const seed = one * 3 + 17;
