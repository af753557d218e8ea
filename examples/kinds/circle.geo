// A circular plate of radius 4 m.
lc = DefineNumber[0.3, Name "lc"];
Point(1) = {0, 0, 0, lc}; Point(2) = {4, 0, 0, lc}; Point(3) = {0, 4, 0, lc}; Point(4) = {-4, 0, 0, lc}; Point(5) = {0, -4, 0, lc};
Circle(1) = {2, 1, 3}; Circle(2) = {3, 1, 4}; Circle(3) = {4, 1, 5}; Circle(4) = {5, 1, 2};
Curve Loop(1) = {1:4}; Plane Surface(1) = {1};
Physical Surface("plate", 1) = {1};
