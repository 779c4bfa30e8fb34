const { Square } = require("./shapes.js");
require("node:test").test("area", () => new Square().area());
