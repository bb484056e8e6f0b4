const pi = 3.14159265359;
const tau = 2.0 * pi;
const inverse_pi = 1.0 / pi;
