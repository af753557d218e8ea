// A square plate of 6 m: its four edges are one group of lines, its centre and two corners are groups of points.
lc = DefineNumber[0.3, Name "lc"];
Point(1) = {0, 0, 0, lc}; Point(2) = {6, 0, 0, lc}; Point(3) = {6, 6, 0, lc}; Point(4) = {0, 6, 0, lc}; Point(5) = {3, 3, 0, lc};
Line(1) = {1, 2}; Line(2) = {2, 3}; Line(3) = {3, 4}; Line(4) = {4, 1};
Curve Loop(1) = {1:4}; Plane Surface(1) = {1}; Point{5} In Surface{1};
Physical Surface("plate") = {1};
Physical Curve("edge") = {1:4};
Physical Point("centre") = {5};
Physical Point("origin") = {1};
Physical Point("end of x") = {2};
