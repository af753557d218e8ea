"""Gmsh .msh, ASCII, versions 2.2 and 4.1."""
from mesh.meshes import Mesh

TRIANGLE = 2
QUAD = 3
PASSED_OVER = {15: 'point', 1: 'line', 8: 'second-order line', 26: 'third-order line', 27: 'fourth-order line', 28: 'fifth-order line'}
OTHERS = {
    3: 'quadrangle', 4: 'tetrahedron', 5: 'hexahedron', 6: 'prism', 7: 'pyramid', 9: 'second-order triangle of 6 nodes',
    10: 'second-order quadrangle of 9 nodes', 11: 'second-order tetrahedron', 16: 'second-order quadrangle of 8 nodes',
    20: 'third-order triangle of 9 nodes', 21: 'third-order triangle of 10 nodes', 22: 'fourth-order triangle of 12 nodes',
    23: 'fourth-order triangle of 15 nodes', 24: 'fifth-order triangle of 15 nodes', 25: 'fifth-order triangle of 21 nodes',
}


class Gmsh:
    """A file as far as it is read."""

    def __init__(self, reader):
        self.reader = reader
        self.mesh = Mesh(reader.source)
        self.places = {}  # the place in the list of points, by the file's node number

    def node(self, words, number):
        if number in self.places:
            self.reader.fail('node %d is given twice' % number)
        self.places[number] = len(self.mesh.points)
        self.mesh.add_point(self.reader.point(words), number, self.reader.number)

    def element(self, kind, words):
        """Keeps a triangle, passes over points and lines, fails at everything else."""
        if kind in PASSED_OVER:
            return
        if kind != TRIANGLE:
            self.reader.fail('a %s; only triangles of 3 nodes are taken' % OTHERS.get(kind, 'cell of element type %d' % kind))
        if len(words) != 3:
            self.reader.fail('a triangle has 3 nodes, not %d' % len(words))
        self.mesh.add_triangle([self.place(word) for word in words], self.reader.number)

    def place(self, word):
        number = self.reader.whole(word, 'a node number')
        if number not in self.places:
            self.reader.fail('node %d is not in $Nodes' % number)
        return self.places[number]

    def header(self, words, count, what):
        if len(words) != count:
            self.reader.fail('%s should have %d values, not %d' % (what, count, len(words)))
        return [self.reader.whole(word, what) for word in words]

    def end(self, name):
        if self.reader.needed('$End' + name) != ['$End' + name]:
            self.reader.fail('should be $End%s: the section has more or fewer lines than it says' % name)

    def inside(self, what):
        """The next line of a section."""
        words = self.reader.needed(what)
        if words[0].startswith('$'):
            self.reader.fail('the section ends where %s should follow' % what)
        return words


def read(reader):
    gmsh = Gmsh(reader)
    version = None
    while (words := reader.line()) is not None:
        name = words[0]
        if name == '$MeshFormat':
            version = mesh_format(gmsh)
        elif version is None and name != '$Comments':
            reader.fail('a .msh file begins with $MeshFormat')
        elif name in ('$Nodes', '$Elements'):
            SECTIONS[name, version](gmsh)
            gmsh.end(name[1:])
        elif name.startswith('$'):
            pass_over(reader, name)
        else:
            reader.fail("'%s' stands outside any section" % name)
    if version is None:
        reader.fail('the file is empty')
    return gmsh.mesh


def mesh_format(gmsh):
    words = gmsh.inside('the version')
    if len(words) != 3:
        gmsh.reader.fail('should be the version, 0 for ASCII and the size of a double')
    if words[1] != '0':
        gmsh.reader.fail('not ASCII: the file is binary; save it as ASCII (Gmsh: Mesh.Binary = 0)')
    if words[0] not in ('2.2', '4.1'):
        gmsh.reader.fail('version %s; versions 2.2 and 4.1 are read (gmsh FILE -save -format msh41)' % words[0])
    gmsh.end('MeshFormat')
    return words[0]


def pass_over(reader, name):
    begin = reader.number
    while (raw := reader.raw()) is not None:
        if raw.strip() == b'$End' + name[1:].encode():
            return
    reader.source.fail(begin, '%s has no $End%s' % (name, name[1:]))


def nodes_22(gmsh):
    count = gmsh.header(gmsh.inside('the number of nodes'), 1, 'the number of nodes')[0]
    for i in range(count):
        words = gmsh.inside('node %d of %d' % (i + 1, count))
        if len(words) != 4:
            gmsh.reader.fail('a node has a number and three coordinates')
        gmsh.node(words[1:], gmsh.reader.whole(words[0], 'a node number'))


def elements_22(gmsh):
    count = gmsh.header(gmsh.inside('the number of elements'), 1, 'the number of elements')[0]
    for i in range(count):
        words = gmsh.inside('element %d of %d' % (i + 1, count))
        if len(words) < 3:
            gmsh.reader.fail('an element has a number, a type, tags and nodes')
        kind = gmsh.reader.whole(words[1], 'the element type')
        gmsh.element(kind, words[3 + gmsh.reader.count(words[2], 'the number of tags'):])


def nodes_41(gmsh):
    blocks = gmsh.header(gmsh.inside('the numbers of blocks and nodes'), 4, 'the line of $Nodes')[0]
    for _ in range(blocks):
        count = gmsh.header(gmsh.inside('a block of nodes'), 4, 'the first line of a block')[3]
        numbers = [gmsh.header(gmsh.inside('a node number'), 1, 'a node number')[0] for _ in range(count)]
        for number in numbers:
            words = gmsh.inside('the coordinates of node %d' % number)
            if len(words) < 3:
                gmsh.reader.fail('a node has three coordinates')
            gmsh.node(words[:3], number)


def elements_41(gmsh):
    blocks = gmsh.header(gmsh.inside('the numbers of blocks and elements'), 4, 'the line of $Elements')[0]
    for _ in range(blocks):
        _, _, kind, count = gmsh.header(gmsh.inside('a block of elements'), 4, 'the first line of a block')
        for _ in range(count):
            gmsh.element(kind, gmsh.inside('an element')[1:])


SECTIONS = {
    ('$Nodes', '2.2'): nodes_22, ('$Elements', '2.2'): elements_22,
    ('$Nodes', '4.1'): nodes_41, ('$Elements', '4.1'): elements_41,
}

NAMES = ['$PhysicalNames', '2', '2 1 "quads"', '2 2 "leftover triangles"', '$EndPhysicalNames']


def write_22(mesh):
    """Quads are in physical and elementary surface 1, leftover triangles in 2."""
    lines = ['$MeshFormat', '2.2 0 8', '$EndMeshFormat'] + NAMES
    lines += ['$Nodes', str(len(mesh.points))]
    lines += ['%d %r %r %r' % (i + 1, *point) for i, point in enumerate(mesh.points)]
    lines += ['$EndNodes', '$Elements', str(len(mesh.cells()))]
    for i, cell in enumerate(mesh.cells()):
        kind, surface = (QUAD, 1) if len(cell) == 4 else (TRIANGLE, 2)
        lines.append('%d %d 2 %d %d ' % (i + 1, kind, surface, surface) + ' '.join(str(node + 1) for node in cell))
    return '\n'.join(lines + ['$EndElements']) + '\n'


def write_41(mesh):
    """Quads are in physical and elementary surface 1, leftover triangles in 2; all nodes are in surface 1."""
    count = len(mesh.points)
    box = [repr(pick(axis)) for pick in (min, max) for axis in zip(*mesh.points)] or ['0'] * 6
    lines = ['$MeshFormat', '4.1 0 8', '$EndMeshFormat'] + NAMES + ['$Entities', '0 0 2 0']
    lines += ['%d %s 1 %d 0' % (surface, ' '.join(box), surface) for surface in (1, 2)]
    lines += ['$EndEntities', '$Nodes', '%d %d %d %d' % (count > 0, count, count > 0, count)]
    lines += ['2 1 0 %d' % count] * (count > 0)
    lines += [str(i + 1) for i in range(count)] + ['%r %r %r' % point for point in mesh.points]
    blocks = [(1, QUAD, mesh.quads), (2, TRIANGLE, mesh.triangles)]
    blocks = [block for block in blocks if block[2]]
    cells = len(mesh.cells())
    lines += ['$EndNodes', '$Elements', '%d %d %d %d' % (len(blocks), cells, cells > 0, cells)]
    number = 0
    for surface, kind, members in blocks:
        lines.append('2 %d %d %d' % (surface, kind, len(members)))
        for cell in members:
            number += 1
            lines.append(' '.join(map(str, (number, *(node + 1 for node in cell)))))
    return '\n'.join(lines + ['$EndElements']) + '\n'
