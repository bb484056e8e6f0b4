import package::config::levels;

const first = levels * levels;
const second = levels;
