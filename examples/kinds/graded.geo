// A plate of 6 m by 6 m, eight times finer at one corner than at the others.
lc = DefineNumber[0.6, Name "lc"];
Point(1) = {0, 0, 0, lc/8}; Point(2) = {6, 0, 0, lc}; Point(3) = {6, 6, 0, lc}; Point(4) = {0, 6, 0, lc};
Line(1) = {1, 2}; Line(2) = {2, 3}; Line(3) = {3, 4}; Line(4) = {4, 1};
Curve Loop(1) = {1:4}; Plane Surface(1) = {1};
Physical Surface("plate", 1) = {1};
