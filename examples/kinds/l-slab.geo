// An L-shaped slab, 10 m by 8 m; the group "slab" and its border "edge".
lc = DefineNumber[0.35, Name "lc"];
Point(1) = {0, 0, 0, lc}; Point(2) = {10, 0, 0, lc}; Point(3) = {10, 4, 0, lc};
Point(4) = {4, 4, 0, lc}; Point(5) = {4, 8, 0, lc}; Point(6) = {0, 8, 0, lc};
Line(1) = {1, 2}; Line(2) = {2, 3}; Line(3) = {3, 4}; Line(4) = {4, 5}; Line(5) = {5, 6}; Line(6) = {6, 1};
Curve Loop(1) = {1:6}; Plane Surface(1) = {1};
Physical Curve("edge", 1) = {1:6}; Physical Surface("slab", 2) = {1};
