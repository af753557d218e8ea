// A slab of 12 m by 8 m with two openings.
lc = DefineNumber[0.4, Name "lc"];
Point(1) = {0, 0, 0, lc}; Point(2) = {12, 0, 0, lc}; Point(3) = {12, 8, 0, lc}; Point(4) = {0, 8, 0, lc};
Point(5) = {2, 2, 0, lc}; Point(6) = {4.5, 2, 0, lc}; Point(7) = {4.5, 5, 0, lc}; Point(8) = {2, 5, 0, lc};
Point(9) = {8, 4, 0, lc/2}; Point(10) = {9, 4, 0, lc/2}; Point(11) = {9, 5, 0, lc/2}; Point(12) = {8, 5, 0, lc/2};
Line(1) = {1, 2}; Line(2) = {2, 3}; Line(3) = {3, 4}; Line(4) = {4, 1};
Line(5) = {5, 6}; Line(6) = {6, 7}; Line(7) = {7, 8}; Line(8) = {8, 5};
Line(9) = {9, 10}; Line(10) = {10, 11}; Line(11) = {11, 12}; Line(12) = {12, 9};
Curve Loop(1) = {1:4}; Curve Loop(2) = {5:8}; Curve Loop(3) = {9:12}; Plane Surface(1) = {1, 2, 3};
Physical Surface("slab", 1) = {1};
