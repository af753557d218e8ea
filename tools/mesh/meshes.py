"""The mesh that all forms are read into: points, triangles, quads, and where each stood in its file."""
from dataclasses import dataclass, field


@dataclass
class Birth:
    """How a quad came about."""
    edge: tuple      # the front edge that it grew from, the smaller node first
    round: int       # from 1
    replaced: int    # triangles


@dataclass
class Mesh:
    source: object
    points: list = field(default_factory=list)          # (x, y, z)
    triangles: list = field(default_factory=list)       # three numbers of points, from 0
    quads: list = field(default_factory=list)           # four numbers of points
    births: list = field(default_factory=list)          # of the quads of an answer
    names: list = field(default_factory=list)           # what the file calls each point
    point_lines: list = field(default_factory=list)
    triangle_lines: list = field(default_factory=list)
    size: float = None                                  # of an input text
    stop: int = None
    counts: dict = None                                 # of an answer

    def add_point(self, point, name, line):
        self.points.append(point)
        self.names.append(name)
        self.point_lines.append(line)

    def add_triangle(self, nodes, line):
        self.triangles.append(tuple(nodes))
        self.triangle_lines.append(line)

    def add_quad(self, nodes, edge, round, replaced):
        self.quads.append(tuple(nodes))
        self.births.append(Birth(edge, round, replaced))

    def cells(self):
        return self.quads + self.triangles


def sides(cell):
    """A cell's edges, each with its smaller node first."""
    return [tuple(sorted((cell[i - 1], cell[i]))) for i in range(len(cell))]
