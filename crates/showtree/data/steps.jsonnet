local a = 1;
local b = 2;
local f(x) = if x > 1 then a else if x > 0 then b else 0;
{
  sum: 1 + 2 - a * 3 * b + 4,
  top: std.max(a, f(b))[0].top.left {c: 3}.c,
  apart: [(a.b).c, (a.b)[0], a.b.c, a["b c"], a?.b],
  row: [1, 2.5, "three", null, true, 6, 7, 8, 9, 10, 11, 12, "thirteen", "fourteen", "fifteen", "sixteen", "seventeen"],
  mixed: [1, -1],
  "a name": [],
}
