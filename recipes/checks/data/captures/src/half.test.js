const { half } = require("./half.js");
require("node:test").test("half", () => half(3));
