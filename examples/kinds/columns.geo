// A slab of 12 m by 9 m on twelve columns, with a wall inside.
lc = DefineNumber[0.4, Name "lc"];
Point(1) = {0, 0, 0, lc}; Point(2) = {12, 0, 0, lc}; Point(3) = {12, 9, 0, lc}; Point(4) = {0, 9, 0, lc};
Line(1) = {1, 2}; Line(2) = {2, 3}; Line(3) = {3, 4}; Line(4) = {4, 1};
Curve Loop(1) = {1:4}; Plane Surface(1) = {1};
For i In {0:3}
  For j In {0:2}
    Point(10 + 3*i + j) = {1.5 + 3*i, 1.5 + 3*j, 0, lc};
    Point{10 + 3*i + j} In Surface{1};
  EndFor
EndFor
Point(30) = {5, 3, 0, lc}; Point(31) = {8, 3, 0, lc}; Point(32) = {8, 6.5, 0, lc};
Line(30) = {30, 31}; Line(31) = {31, 32};
Line{30, 31} In Surface{1};
Physical Point("column", 3) = {10:21}; Physical Curve("wall", 4) = {30, 31}; Physical Surface("slab", 1) = {1};
