// A footing of 3 m by 2 m, thicker under its column: two surfaces with a border between them.
lc = DefineNumber[0.12, Name "lc"];
Point(1) = {0, 0, 0, lc}; Point(2) = {3, 0, 0, lc}; Point(3) = {3, 2, 0, lc}; Point(4) = {0, 2, 0, lc};
Point(5) = {1.2, 0.7, 0, lc/2}; Point(6) = {1.8, 0.7, 0, lc/2}; Point(7) = {1.8, 1.3, 0, lc/2}; Point(8) = {1.2, 1.3, 0, lc/2};
Line(1) = {1, 2}; Line(2) = {2, 3}; Line(3) = {3, 4}; Line(4) = {4, 1};
Line(5) = {5, 6}; Line(6) = {6, 7}; Line(7) = {7, 8}; Line(8) = {8, 5};
Curve Loop(1) = {1:4}; Curve Loop(2) = {5:8}; Plane Surface(1) = {1, 2}; Plane Surface(2) = {2};
Physical Surface("thin", 1) = {1}; Physical Surface("thick", 2) = {2};
