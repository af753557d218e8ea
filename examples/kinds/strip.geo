// A strip of 30 m by 1 m.
lc = DefineNumber[0.25, Name "lc"];
Point(1) = {0, 0, 0, lc}; Point(2) = {30, 0, 0, lc}; Point(3) = {30, 1, 0, lc}; Point(4) = {0, 1, 0, lc};
Line(1) = {1, 2}; Line(2) = {2, 3}; Line(3) = {3, 4}; Line(4) = {4, 1};
Curve Loop(1) = {1:4}; Plane Surface(1) = {1};
Physical Surface("strip", 1) = {1};
