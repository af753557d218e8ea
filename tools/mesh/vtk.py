"""Legacy VTK, ASCII: an unstructured grid or polydata; lists of cells as before and since version 5."""
from mesh.meshes import Mesh

TRIANGLE = 5
POLYGON = 7
QUAD = 9
PASSED_OVER = {1, 2, 3, 4, 21}  # vertices and lines
OTHERS = {
    6: 'triangle strip', 8: 'pixel', 9: 'quad', 10: 'tetrahedron', 12: 'hexahedron', 22: 'second-order triangle of 6 nodes',
    23: 'second-order quad of 8 nodes',
}


def read(reader):
    header(reader)
    mesh = Mesh(reader.source)
    cells = types = None
    while (words := reader.line()) is not None and words[0].upper() not in ('CELL_DATA', 'POINT_DATA'):
        key = words[0].upper()
        if key == 'DATASET':
            dataset(reader, words)
        elif key == 'FIELD':
            pass_over_field(reader, words)
        elif key == 'METADATA':
            pass_over_metadata(reader)
        elif key == 'POINTS':
            points(reader, mesh, words)
        elif key in ('CELLS', 'POLYGONS'):
            cells = lists(reader, words)
            types = types or ([(POLYGON, line) for line, _ in cells] if key == 'POLYGONS' else None)
        elif key in ('VERTICES', 'LINES'):
            lists(reader, words)
        elif key == 'CELL_TYPES':
            types = cell_types(reader, words)
        else:
            reader.fail("'%s' is not taken; POINTS with CELLS and CELL_TYPES, or POLYGONS, are" % words[0])
    if cells:
        triangles(reader, mesh, cells, types)
    return mesh


def header(reader):
    if not (reader.raw() or b'').startswith(b'# vtk DataFile'):
        reader.fail("a legacy VTK file begins with '# vtk DataFile Version'")
    reader.raw()  # the title, in any characters
    words = reader.needed('ASCII')
    if words != ['ASCII']:
        reader.fail('not ASCII: the file is %s' % ' '.join(words))


def dataset(reader, words):
    if words[1:] not in (['UNSTRUCTURED_GRID'], ['POLYDATA']):
        reader.fail('dataset %s; UNSTRUCTURED_GRID and POLYDATA are read' % ' '.join(words[1:]))


def number_in(reader, words, place, what):
    if len(words) <= place:
        reader.fail('%s is missing' % what)
    return reader.count(words[place], what)


def points(reader, mesh, words):
    count = number_in(reader, words, 1, 'the number of points')
    for i in range(count):
        what = 'point %d of %d' % (i, count)
        mesh.add_point(reader.point([reader.word(what) for _ in range(3)]), i, reader.number)
    whole_lines(reader)


def lists(reader, words):
    """Cells as (line, nodes)."""
    count = number_in(reader, words, 1, 'the number of cells')
    length = number_in(reader, words, 2, 'the number of values')
    if count == 0 and length == 0:
        return []
    first = reader.word('a cell')
    if first == 'OFFSETS':
        return by_offsets(reader, count, length)
    cells = []
    for i in range(count):
        size = reader.count(first if i == 0 else reader.word('cell %d of %d' % (i, count)), 'the number of nodes')
        cells.append((reader.number, [node(reader) for _ in range(size)]))
    whole_lines(reader)
    return cells


def by_offsets(reader, count, length):
    """Version 5: the count is that of the offsets, one more than the cells."""
    reader.word('the type of the offsets')
    offsets = [reader.count(reader.word('an offset'), 'an offset') for _ in range(count)]
    if reader.word('CONNECTIVITY') != 'CONNECTIVITY':
        reader.fail('should be CONNECTIVITY')
    reader.word('the type of the node numbers')
    nodes = []
    for _ in range(length):
        value = node(reader)
        nodes.append((reader.number, value))
    whole_lines(reader)
    if offsets != sorted(offsets) or offsets[:1] != [0] or offsets[-1] != length:
        reader.fail('the offsets should rise from 0 to %d' % length)
    spans = [nodes[begin:end] for begin, end in zip(offsets, offsets[1:])]
    return [(span[0][0] if span else reader.number, [value for _, value in span]) for span in spans]


def node(reader):
    return reader.whole(reader.word('a node number'), 'a node number')


def cell_types(reader, words):
    count = number_in(reader, words, 1, 'the number of cells')
    types = []
    for i in range(count):
        kind = reader.whole(reader.word('cell type %d of %d' % (i, count)), 'a cell type')
        types.append((kind, reader.number))
    whole_lines(reader)
    return types


def whole_lines(reader):
    """A list ends at the end of a line."""
    if reader.rest:
        reader.fail("'%s' follows after the list's last value" % reader.rest[-1])


def triangles(reader, mesh, cells, types):
    if types is None or len(types) != len(cells):
        reader.source.fail(types[-1][1] if types else reader.number, '%d cells, but %d cell types' % (len(cells), len(types or [])))
    for (line, nodes), (kind, type_line) in zip(cells, types):
        if kind in PASSED_OVER:
            continue
        if kind not in (TRIANGLE, POLYGON):
            reader.source.fail(type_line, 'a %s; only triangles of 3 nodes are taken' % OTHERS.get(kind, 'cell of type %d' % kind))
        if len(nodes) != 3:
            reader.source.fail(line, 'a cell of %d nodes; only triangles of 3 nodes are taken' % len(nodes))
        for number in nodes:
            if not 0 <= number < len(mesh.points):
                reader.source.fail(line, 'point %d is not there: the file has %d' % (number, len(mesh.points)))
        mesh.add_triangle(nodes, line)


def pass_over_field(reader, words):
    for _ in range(number_in(reader, words, 2, 'the number of arrays')):
        array = reader.needed('an array')
        for _ in range(number_in(reader, array, 1, 'the number of components') * number_in(reader, array, 2, 'the number of tuples')):
            reader.word('a value of the array')
        whole_lines(reader)


def pass_over_metadata(reader):
    """To the next blank line."""
    while reader.raw():
        pass


def write(mesh):
    cells = mesh.cells()
    lines = ['# vtk DataFile Version 3.0', 'quads and leftover triangles', 'ASCII', 'DATASET UNSTRUCTURED_GRID']
    lines += ['POINTS %d double' % len(mesh.points)] + ['%r %r %r' % point for point in mesh.points]
    lines += ['CELLS %d %d' % (len(cells), sum(len(cell) + 1 for cell in cells))]
    lines += [' '.join(map(str, (len(cell), *cell))) for cell in cells]
    lines += ['CELL_TYPES %d' % len(cells)] + [str(QUAD if len(cell) == 4 else TRIANGLE) for cell in cells]
    return '\n'.join(lines) + '\n'
