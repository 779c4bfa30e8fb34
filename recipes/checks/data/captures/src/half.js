exports.half = (x) => {
  if (x > 1) {
    return x / 2;
  }
  return x;
};
exports.never = (x) =>
  [1].map((y) => y * x);
