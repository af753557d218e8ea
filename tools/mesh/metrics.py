"""What is measured of a mesh: the scaled Jacobian of a quad, the edges of the front, orientation."""
import math
from collections import Counter
from mesh.meshes import sides

REFERENCE = ((-1.0, -1.0), (1.0, -1.0), (1.0, 1.0), (-1.0, 1.0))


def min_scaled_jacobian(corners):
    """`min_scaled_jacobian` of the Rust, its order of sums kept: the least over the four corners, which passes over a NaN."""
    least = math.inf
    for at in REFERENCE:
        j00 = j10 = j01 = j11 = 0.0
        for (l0, l1), point in zip(REFERENCE, corners):
            d0 = 0.25 * l0 * (1.0 + l1 * at[1])
            d1 = 0.25 * l1 * (1.0 + l0 * at[0])
            j00 += d0 * point[0]
            j10 += d0 * point[1]
            j01 += d1 * point[0]
            j11 += d1 * point[1]
        lengths = math.sqrt(j00 * j00 + j10 * j10) * math.sqrt(j01 * j01 + j11 * j11)
        if lengths > 0.0:
            scaled = (j00 * j11 - j01 * j10) / lengths
            least = scaled if scaled < least else least
    return least


def front_edges(mesh):
    """Edges with one or two owners, exactly one of them a triangle."""
    triangles = Counter(edge for cell in mesh.triangles for edge in sides(cell))
    owners = Counter(edge for cell in mesh.cells() for edge in sides(cell))
    return [edge for edge, count in triangles.items() if count == 1 and owners[edge] <= 2]


def clockwise(mesh):
    """The triangles that turn right, by their places in the list."""
    return [i for i, cell in enumerate(mesh.triangles) if turn(*(mesh.points[node] for node in cell)) < 0.0]


def turn(a, b, c):
    return (b[0] - a[0]) * (c[1] - a[1]) - (b[1] - a[1]) * (c[0] - a[0])


def mean_edge(mesh):
    """The mean length of the triangles' edges."""
    edges = {edge for cell in mesh.triangles for edge in sides(cell)}
    total = sum(math.dist(mesh.points[a][:2], mesh.points[b][:2]) for a, b in sorted(edges))
    return total / len(edges) if edges else 0.0
