"""Universal files of I-DEAS (.unv), as Gmsh and Salome write them: nodes, cells and groups by name.
meshio has no reader of them."""
import numpy
from .msh import meshio
from .surfaces import Fault, visible

NODES, CELLS = '2411', '2412'
GROUPS = {'2435': 2, '2452': 2, '2467': 2, '2477': 2, '2430': 4, '2432': 4}  # entities in a line
BEAMS = (11, 21, 22, 24, 25)  # their nodes come behind a line on their orientation
NODE, CELL = 7, 8             # kinds of entities in a group
# cells by their descriptor: beams, faces of plane stress and strain, plates, membranes, thin
# shells, and solids
KINDS = {
    11: 'line', 21: 'line', 22: 'line', 24: 'line3', 111: 'tetra', 112: 'wedge', 115: 'hexahedron',
    118: 'tetra10',
}
# by the last digit of descriptors from 41 to 95
FACES = {1: 'triangle', 2: 'triangle6', 4: 'quad', 5: 'quad8'}
WIDTHS = {
    'line': 2, 'line3': 3, 'triangle': 3, 'triangle6': 6, 'quad': 4, 'quad8': 8, 'tetra': 4,
    'wedge': 6, 'hexahedron': 8, 'tetra10': 10,
}


class Lines:
    """The lines of a dataset, in turn."""

    def __init__(self, rows):
        self.rows, self.at = rows, 0

    def __bool__(self):
        return self.at < len(self.rows)

    def take(self):
        """(number in the file, words)"""
        if not self:
            raise Fault(
                'it ends too early: a dataset breaks off at line %d. Write it anew'
                % (self.rows[-1][0] if self.rows else 0)
            )
        self.at += 1
        return self.rows[self.at - 1]

    def numbers(self, kind=int, least=0):
        number, words = self.take()
        try:
            found = [kind(word) for word in words.upper().replace('D', 'E').split()]
        except ValueError:
            found = []
        if len(found) < max(least, 1):
            raise Fault(
                "it stops at line %d, '%s'; numbers are missing there, or are none. Mend the file "
                "or write it anew"
                % (number, visible(words.strip())[:60])
            )
        return found


def datasets(lines):
    """[(kind, Lines)]: what stands between lines of -1."""
    found, rows = [], None
    for number, words in enumerate(lines, 1):
        if words.strip() == '-1':
            if rows is not None:
                found += [(rows[0][1].strip(), Lines(rows[1:]))] if rows else []
            rows = [] if rows is None else None
        elif rows is not None:
            rows.append((number, words.rstrip('\n')))
    if rows is not None:
        raise Fault('it ends too early: its last dataset has no end. Write it anew')
    if not found:
        raise Fault('it has no dataset, which stand between lines of -1: it is no universal file')
    return found


def read_nodes(lines, nodes):
    """Adds {number: (x, y, z)}."""
    while lines:
        (number, *_), place = lines.numbers(), tuple(lines.numbers(float, 3)[:3])
        if nodes.setdefault(number, place) != place:
            raise Fault(
                'node %d stands at two places, (%s) and (%s): mend the file'
                % (number, *(', '.join('%.10g' % x for x in own) for own in (nodes[number], place)))
            )


def read_cells(lines, cells):
    """Adds {kind: {number: nodes}}."""
    while lines:
        number, descriptor, _, _, _, count = lines.numbers(least=6)[:6]
        if descriptor in BEAMS:
            lines.numbers()
        kind = FACES.get(descriptor % 10) if 41 <= descriptor <= 95 else KINDS.get(descriptor)
        if kind is None or WIDTHS[kind] != count:
            raise Fault(
                'element %d has descriptor %d and %d nodes, which is not known here: write the '
                'surface alone'
                % (number, descriptor, count)
            )
        nodes = []
        while len(nodes) < count:
            nodes += lines.numbers()
        cells.setdefault(kind, {})[number] = nodes[:count]


def read_groups(lines, wide, groups):
    """Adds {name: {kind of entity: numbers}}."""
    while lines:
        head, (_, name) = lines.numbers(least=8), lines.take()
        own = groups.setdefault(name.strip() or 'group_%d' % head[0], {NODE: set(), CELL: set()})
        left = head[7]
        while left > 0:
            row = lines.numbers()
            step = 8 // wide
            for i in range(0, min(len(row), step * left), step):
                own.get(row[i], set()).add(row[i + 1])
                left -= 1


def read(path):
    """The mesh of a file, as meshio has it; `told` are notes."""
    with open(path, encoding='latin-1') as file:
        found = datasets(file)
    nodes, cells, groups = {}, {}, {}
    for kind, lines in found:
        if kind == NODES:
            read_nodes(lines, nodes)
        elif kind == CELLS:
            read_cells(lines, cells)
        elif kind in GROUPS:
            read_groups(lines, GROUPS[kind], groups)
    place = {number: i for i, number in enumerate(nodes)}
    missing = next(
        (
            (number, node) for own in cells.values() for number, row in own.items() for node in row
            if node not in place
        ),
        None,
    )
    if missing:
        raise Fault(
            'element %d names node %d, which is not in the file: mend it or write it anew' % missing
        )
    mesh = meshio.Mesh(
        numpy.array(list(nodes.values()), dtype=float).reshape(-1, 3),
        [
            (kind, numpy.array([[place[node] for node in row] for row in own.values()]))
            for kind, own in cells.items()
        ],
    )
    numbers = [numpy.array(list(own)) for own in cells.values()]
    mesh.cell_sets = {
        name: [numpy.flatnonzero(numpy.isin(own, list(members[CELL]))) for own in numbers]
        for name, members in groups.items() if members[CELL]
    }
    mesh.point_sets = {
        name: numpy.array(
            sorted(place[node] for node in members[NODE] if node in place), dtype=numpy.int64
        )
        for name, members in groups.items() if members[NODE]
    }
    every = set().union(*map(set, cells.values())) if cells else set()
    mesh.told = [
        'the group %s has %d elements that the file does not have; Gmsh writes points so, unless '
        'Mesh.SaveGroupsOfNodes is 1'
        % (name, len(members[CELL] - every))
        for name, members in groups.items() if members[CELL] - every
    ]
    return mesh
