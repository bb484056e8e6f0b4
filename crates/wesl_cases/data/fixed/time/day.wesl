const hour = 60 * 60;
const day = hour * 24;
