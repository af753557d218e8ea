"""Gmsh's .msh read, .msh and .vtu written, with numpy alone; and the choice between that and
meshio.

`meshio` and `meshio_forms` of this module are meshio where it is installed, otherwise this module,
which offers as much of meshio as the package uses: `Mesh`, `read`, `write` and the tables of
formats. Read are .msh of the versions 2.2 and 4.1, text and binary, and the .vtu that is written
here. Written are .msh 2.2, the same bytes as meshio's, and .vtu. Every other format needs meshio.

The reader is strict: a section that is not closed, a count that is not that of the lines, a number
that is none, a node or an entity that is not there is a Fault with the line."""
import base64
import sys
import xml.etree.ElementTree as xml
from xml.sax.saxutils import quoteattr
import numpy
from .reading import content_of, line_words
from .surfaces import Fault

# (name, nodes) of Gmsh's element types
TYPES = {
    1: ('line', 2), 2: ('triangle', 3), 3: ('quad', 4), 4: ('tetra', 4), 5: ('hexahedron', 8),
    6: ('wedge', 6), 7: ('pyramid', 5), 8: ('line3', 3), 9: ('triangle6', 6), 10: ('quad9', 9),
    11: ('tetra10', 10), 15: ('vertex', 1), 16: ('quad8', 8), 21: ('triangle10', 10),
}
NUMBERS = {kind: number for number, (kind, _) in TYPES.items()}
VERSIONS = {'2': '2.2', '2.2': '2.2', '4': '4.1', '4.1': '4.1'}
VTK = {'vertex': 1, 'line': 3, 'triangle': 5, 'quad': 9}  # types of VTK
PHYSICAL, GEOMETRICAL = 'gmsh:physical', 'gmsh:geometrical'
NEEDED = (
    '%s files need meshio, which is not installed (Debian: apt install python3-meshio; elsewhere: '
    'pip install meshio). Without it .msh is read, and .msh and .vtu are written'
)


class Block:
    """Cells of one kind."""

    def __init__(self, kind, data):
        self.type, self.data = kind, numpy.asarray(data)


class Mesh:
    """A mesh as meshio has it: points, blocks of cells, and what is known of them by name."""

    def __init__(
        self, points, cells, point_data=None, cell_data=None, field_data=None, point_sets=None,
        cell_sets=None,
    ):
        self.points, self.cells = numpy.asarray(points), [Block(kind, rows) for kind, rows in cells]
        self.point_data, self.cell_data, self.field_data = (
            point_data or {}, cell_data or {}, field_data or {}
        )
        self.point_sets, self.cell_sets = point_sets or {}, cell_sets or {}


class Wrong(Exception):
    """Why the file cannot be read, and the byte where that is."""


class Words:
    """The numbers of a section of a text file, one after the other."""

    def __init__(self, content, begin, end):
        self.begin, self.words, self.at = begin, content[begin:end].split(), 0
        self.content, self.stop = content, end

    def take(self, kind, count=1):
        """So many numbers of a kind: int, size (a whole number from 0 on) or float."""
        words = self.words[self.at:self.at + count]
        if len(words) < count:
            raise Wrong('numbers are missing', self.stop)
        try:
            found = (
                numpy.array(words, dtype=float) if kind == 'float'
                else numpy.array([int(word) for word in words], dtype=numpy.int64)
            )
        except (ValueError, OverflowError):
            raise Wrong(*self.odd(words, float if kind == 'float' else int))
        if kind == 'size' and (found < 0).any():
            raise Wrong('a number is below zero', self.place(self.at + int((found < 0).argmax())))
        self.at += count
        return found

    def odd(self, words, kind):
        """(words on the first that is no number, its place)"""
        for i, word in enumerate(words):
            try:
                numpy.array([kind(word)], dtype=float if kind is float else numpy.int64)
            except (ValueError, OverflowError):
                return (
                    "'%s' is no %snumber" % (
                        word.decode('utf-8', 'replace'), '' if kind is float else 'whole '
                    ),
                    self.place(self.at + i),
                )

    def place(self, number):
        """The byte at which a word stands."""
        at = self.begin
        for word in self.words[:number]:
            at = self.content.index(word, at) + len(word)
        return self.content.index(self.words[number], at) if number < len(self.words) else self.stop

    def here(self):
        return self.place(max(self.at - 1, 0))

    def end(self):
        if self.at < len(self.words):
            raise Wrong('there are more numbers than the section says', self.place(self.at))
        return self.stop


class Raw:
    """The numbers of a section of a binary file, in this machine's order of bytes."""
    KINDS = {'int': numpy.dtype('<i4'), 'size': numpy.dtype('<u8'), 'float': numpy.dtype('<f8')}

    def __init__(self, content, begin, name):
        self.content, self.at, self.name = content, begin, name

    def take(self, kind, count=1):
        form = self.KINDS[kind]
        found = self.rows(form, count)
        if kind == 'size' and (found > numpy.uint64(1 << 62)).any():
            raise Wrong('a number is too large', self.at)
        return found if kind == 'float' else found.astype(numpy.int64)

    def rows(self, form, count):
        if not 0 <= count * form.itemsize <= len(self.content) - self.at:
            raise Wrong('numbers are missing', len(self.content))
        found = numpy.frombuffer(self.content, form, count, self.at)
        self.at += count * form.itemsize
        return found

    def line(self):
        """The words of a line of text."""
        stop = self.content.find(b'\n', self.at)
        words, self.at = self.content[self.at:stop], stop + 1
        if stop < 0 or not words.strip().isdigit():
            raise Wrong('a count is missing', self.at)
        return int(words)

    def here(self):
        return self.at

    def end(self):
        closed = b'$End' + self.name
        if not self.content[self.at:self.at + len(closed) + 1].lstrip(b'\n').startswith(closed):
            raise Wrong('%s is missing' % closed.decode('ascii', 'replace'), self.at)
        return self.content.index(closed, self.at)


def read(path, file_format):
    """The mesh of a file of this format."""
    content = content_of(path)
    if file_format == 'vtu':
        return read_vtu(content)
    if file_format != 'gmsh':
        raise no_meshio(file_format)
    try:
        return read_gmsh(content)
    except Wrong as wrong:
        why, at = wrong.args
        raise Fault(
            'it cannot be read as gmsh: %s: %s. Mend the file or write it anew; if it has another '
            'format, say it with --from'
            % (stopped(content, min(at, len(content))), why)
        )


def stopped(content, at):
    """Words on a place: the line in a text, the byte in a file that is none."""
    if len(content) - at < 2:
        return (
            'it ends too early, after %s'
            % ('%d bytes' % len(content) if b'\0' in content else '%d lines' % content.count(b'\n'))
        )
    if b'\0' in content:
        return 'it stops at byte %d of %d' % (at, len(content))
    begin = content.rfind(b'\n', 0, at) + 1
    return line_words(
        content.count(b'\n', 0, at) + 1,
        content[begin:].split(b'\n', 1)[0].decode('utf-8', 'replace'),
    )


def no_meshio(form):
    error = ModuleNotFoundError(NEEDED % form)
    error.name = 'meshio'
    return error


class Gmsh:
    """What is known of a .msh file while its sections are read."""

    def __init__(self):
        self.binary = self.version = self.tags = self.points = self.dims = self.cells = None
        # {name: (number, dimension)}, and {(dimension, entity): its physical numbers}
        self.names, self.groups = {}, None


def read_gmsh(content):
    """The mesh of a .msh file."""
    found, at, seen = Gmsh(), 0, set()
    at = read_format(found, content)
    takers = {
        b'PhysicalNames': read_names, b'Entities': read_entities, b'Nodes': read_nodes,
        b'Elements': read_elements,
    }
    while content[at:].strip():
        at += len(content[at:]) - len(content[at:].lstrip())
        name, begin = section(content, at)
        if name in seen and name in takers:
            raise Wrong('the section stands twice', at)
        seen.add(name)
        closed = b'$End' + name
        if name in takers and name != b'PhysicalNames' and found.binary:
            numbers = Raw(content, begin, name)
        else:
            stop = content.find(b'\n' + closed, begin - 1) + 1
            if not stop:
                raise Wrong('%s is missing' % closed.decode('ascii', 'replace'), len(content))
            numbers = Words(content, begin, stop) if name in takers else None
        at = (takers[name](found, numbers) if numbers else stop) + len(closed)
    if found.cells is None:
        raise Wrong('there is no section $Elements', len(content))
    blocks, data, sets = found.cells
    return Mesh(
        found.points, blocks, {} if found.dims is None else {'gmsh:dim_tags': found.dims}, data,
        {name: numpy.array(pair) for name, pair in found.names.items()}, None, sets,
    )


def section(content, at):
    """(name of the section that begins there, where its content begins)"""
    stop = content.find(b'\n', at)
    line = content[at:stop if stop >= 0 else len(content)].strip()
    if not line.startswith(b'$') or line.startswith(b'$End') or stop < 0:
        raise Wrong('a section, such as $Nodes, should begin there', at)
    return line[1:], stop + 1


def read_format(found, content):
    """Reads $MeshFormat; the place behind it."""
    name, begin = section(content, 0)
    while name == b'Comments':
        at = content.find(b'$EndComments', begin)
        name, begin = section(content, content.find(b'\n', at) + 1) if at >= 0 else (b'', 0)
    stop = content.find(b'\n', begin)
    words = content[begin:stop].split()
    if name != b'MeshFormat' or len(words) != 3 or words[1] not in (b'0', b'1'):
        raise Wrong('the section $MeshFormat should stand there', begin)
    version = words[0].decode('ascii', 'replace')
    if version not in VERSIONS:
        raise Fault(
            'it has version %s of .msh: without meshio the versions 2.2 and 4.1 are read; write it '
            'anew (gmsh -0 in.msh -format msh41 -o out.msh), or install meshio'
            % line_words(0, version).split("'")[1]
        )
    found.version, found.binary, at = VERSIONS[version], words[1] == b'1', stop + 1
    if found.binary:
        if words[2] != b'8' or content[at:at + 4] != b'\1\0\0\0':
            raise Wrong('the numbers are of another order of bytes or of another width', at)
        at = at + 4
    closed = content.find(b'$EndMeshFormat', at)
    if closed < 0 or content[at:closed].strip():
        raise Wrong('$EndMeshFormat is missing', at)
    return closed + len(b'$EndMeshFormat')


def read_names(found, numbers):
    """Reads $PhysicalNames: dimension, number and "name" a line."""
    lines = numbers.content[numbers.begin:numbers.stop].splitlines(keepends=True)
    at, rows = numbers.begin, []
    for line in lines:
        if line.strip():
            rows.append((at, line.strip()))
        at += len(line)
    if not rows or not rows[0][1].isdigit() or int(rows[0][1]) != len(rows) - 1:
        raise Wrong('the number of names should stand there', rows[0][0] if rows else numbers.begin)
    for at, line in rows[1:]:
        words = line.split(None, 2)
        name = words[2].decode('utf-8', 'replace') if len(words) == 3 else ''
        if not (
            len(name) >= 2 and name[0] == name[-1] == '"' and words[0] in (b'0', b'1', b'2', b'3')
            and words[1].lstrip(b'-').isdigit()
        ):
            raise Wrong('a dimension, a number and a name in quotes should stand there', at)
        found.names[name[1:-1]] = (int(words[1]), int(words[0]))
    return numbers.stop


def read_entities(found, numbers):
    """Reads $Entities: the physical numbers of each entity."""
    found.groups = {}
    for dimension, count in enumerate(numbers.take('size', 4).tolist()):
        for _ in range(count):
            (tag,) = numbers.take('int')
            numbers.take('float', 6 if dimension else 3)
            (groups,) = numbers.take('size')
            found.groups[dimension, int(tag)] = numbers.take('int', int(groups)).tolist()
            if dimension:
                (bounds,) = numbers.take('size')
                numbers.take('int', int(bounds))
    return numbers.end()


def read_nodes(found, numbers):
    """Reads $Nodes."""
    if found.version == '2.2':
        count = numbers.line() if found.binary else int(numbers.take('size')[0])
        if found.binary:
            rows = numbers.rows(numpy.dtype([('tag', '<i4'), ('place', '<f8', (3,))]), count)
            found.tags, found.points = rows['tag'].astype(numpy.int64), numpy.array(rows['place'])
        else:
            rows = numbers.take('float', 4 * count).reshape(-1, 4)
            found.tags, found.points = rows[:, 0].astype(numpy.int64), numpy.array(rows[:, 1:])
            if not (rows[:, 0] == found.tags).all():
                raise Wrong(
                    'the number of a node is not whole',
                    numbers.place(1 + 4 * int((rows[:, 0] != found.tags).argmax())),
                )
    else:
        blocks, count = (int(n) for n in numbers.take('size', 4)[:2])
        tags, points, dims = (
            [numpy.zeros(0, dtype=numpy.int64)], [numpy.zeros((0, 3))],
            [numpy.zeros((0, 2), dtype=numpy.int64)],
        )
        for _ in range(blocks):
            dimension, entity, parametric = numbers.take('int', 3).tolist()
            if parametric:
                raise Wrong(
                    'nodes with parameters are not read: write the file with Mesh.SaveParametric '
                    '= 0',
                    numbers.here(),
                )
            own = int(numbers.take('size')[0])
            tags.append(numbers.take('size', own))
            points.append(numbers.take('float', 3 * own).reshape(-1, 3))
            dims.append(numpy.tile(numpy.array([[dimension, entity]], dtype=numpy.int64), (own, 1)))
        found.tags, found.points, found.dims = (
            numpy.concatenate(rows) for rows in (tags, points, dims)
        )
        if len(found.tags) != count:
            raise Wrong(
                'the section says %d nodes and has %d' % (count, len(found.tags)), numbers.here()
            )
    numbers_once(found.tags, numbers)
    return numbers.end()


def numbers_once(tags, numbers):
    values, counts = numpy.unique(tags, return_counts=True)
    if len(values) and (counts.max() > 1 or values[0] < 1):
        raise Wrong(
            'node %d stands twice' % values[
                counts.argmax()
            ] if counts.max() > 1 else 'node %d: numbers of nodes begin at 1' % values[0],
            numbers.here(),
        )


def read_elements(found, numbers):
    """Reads $Elements."""
    if found.tags is None:
        raise Wrong('$Nodes should stand before $Elements', numbers.here())
    order = numpy.argsort(found.tags, kind='stable')
    known = found.tags[order]

    def places(rows):
        at = numpy.searchsorted(known, rows)
        wrong = (
            (at >= len(known)) | (known[numpy.minimum(at, max(len(known) - 1, 0))] != rows)
            if len(known) else numpy.ones(rows.shape, dtype=bool)
        )
        if wrong.any():
            raise Wrong(
                'an element has node %d, which is not there' % rows[wrong][0], numbers.here()
            )
        return order[at]
    found.cells = (
        elements_41 if found.version == '4.1' else elements_22_binary if found.binary
        else elements_22
    )(found, numbers, places)
    return numbers.end()


def type_of(number, numbers):
    if number not in TYPES:
        raise Wrong('elements of type %d are not known' % number, numbers.here())
    return TYPES[number]


def elements_41(found, numbers, places):
    """(blocks, arrays of numbers, sets) of version 4.1: a block for each entity."""
    count, total = (int(n) for n in numbers.take('size', 4)[:2])
    blocks, groups, entities, dims = [], [], [], []
    for _ in range(count):
        dimension, entity, number = numbers.take('int', 3).tolist()
        kind, width = type_of(number, numbers)
        if found.groups is not None and (dimension, entity) not in found.groups:
            raise Wrong(
                'entity %d of dimension %d is not in $Entities' % (entity, dimension),
                numbers.here(),
            )
        own = int(numbers.take('size')[0])
        blocks.append(
            (kind, places(numbers.take('size', own * (1 + width)).reshape(own, 1 + width)[:, 1:]))
        )
        groups.append((found.groups or {}).get((dimension, entity), []))
        entities.append(entity)
        dims.append(dimension)
    if sum(len(rows) for _, rows in blocks) != total:
        raise Wrong(
            'the section says %d elements and has %d' % (
                total, sum(len(rows) for _, rows in blocks)
            ),
            numbers.here(),
        )
    full = lambda values: [numpy.full(len(rows), value) for (_, rows), value in zip(blocks, values)]
    data = {PHYSICAL: full([own[0] if own else 0 for own in groups])} if any(groups) else {}
    sets = {
        name: [
            numpy.arange(len(rows) if dimension == own and number in has else 0)
            for (_, rows), own, has in zip(blocks, dims, groups)
        ]
        for name, (number, dimension) in found.names.items()
    }
    return blocks, {**data, GEOMETRICAL: full(entities)}, sets


def elements_22(found, numbers, places):
    """The same of version 2.2: elements one by one, neighbours of one kind a block."""
    rows, at, words = [], 1, numbers.take('int', max(len(numbers.words), 1)).tolist()
    for _ in range(words[0]):
        numbers.at = min(at + 3, len(words))
        if numbers.at < at + 3:
            raise Wrong('elements are missing', numbers.stop)
        number, count = words[at + 1:at + 3]
        kind, width = type_of(number, numbers)
        end = at + 3 + count + width
        if count < 0 or end > len(words):
            raise Wrong('numbers are missing, or a count is below zero', numbers.here())
        rows.append((kind, words[at + 3:end - width], words[end - width:end]))
        at = end
    numbers.at = at
    return gathered_22(rows, places)


def elements_22_binary(found, numbers, places):
    rows, total = [], numbers.line()
    while len(rows) < total:
        number, own, count = numbers.take('int', 3).tolist()
        kind, width = type_of(number, numbers)
        if own < 1 or count < 0:
            raise Wrong('a block of elements has none', numbers.here())
        table = numbers.take('int', own * (1 + count + width)).reshape(own, -1)
        rows += [(kind, row[1:1 + count].tolist(), row[1 + count:]) for row in table]
    return gathered_22(rows, places)


def gathered_22(rows, places):
    blocks, tags, most = [], [], 0
    for kind, own, nodes in rows:
        if not blocks or blocks[-1][0] != kind:
            blocks.append((kind, []))
            tags.append([])
        blocks[-1][1].append(nodes)
        tags[-1].append((own + [0, 0])[:2])
        most = max(most, len(own))
    data = {
        name: [numpy.array(own, dtype=numpy.int64)[:, i] for own in tags]
        for i, name in enumerate((PHYSICAL, GEOMETRICAL)) if most > i
    }
    return [(kind, places(numpy.array(own))) for kind, own in blocks], data, None


def write(path, mesh, file_format, **options):
    """Writes a mesh as .msh 2.2 in text, or as .vtu."""
    writers = {'gmsh22': write_gmsh22, 'vtu': write_vtu}
    if file_format not in writers:
        raise no_meshio(file_format)
    with open(path, 'wb') as file:
        file.write(writers[file_format](mesh).encode())


def write_gmsh22(mesh):
    lines = ['$MeshFormat', '2.2 0 8', '$EndMeshFormat']
    names = sorted(
        (int(dimension), int(number), name) for name, (number, dimension) in mesh.field_data.items()
    )
    if names:
        lines += [
            '$PhysicalNames', str(len(names)), *('%d %d "%s"' % row for row in names),
            '$EndPhysicalNames',
        ]
    lines += [
        '$Nodes', str(len(mesh.points)),
        *('%d %.16e %.16e %.16e' % (i, *point) for i, point in enumerate(mesh.points.tolist(), 1)),
        '$EndNodes',
    ]
    lines += ['$Elements', str(sum(len(block.data) for block in mesh.cells))]
    place = 1
    for k, block in enumerate(mesh.cells):
        tags = numpy.column_stack(
            [
                numpy.zeros(
                    len(block.data), dtype=numpy.int64
                ) if name not in mesh.cell_data else mesh.cell_data[name][k]
                for name in (PHYSICAL, GEOMETRICAL)
            ]
        )
        for own, nodes in zip(tags.tolist(), (numpy.asarray(block.data) + 1).tolist()):
            lines.append(
                '%d %d 2 %d %d %s' % (place, NUMBERS[block.type], *own, ' '.join(map(str, nodes)))
            )
            place += 1
    return '\n'.join(lines + ['$EndElements', ''])


def write_vtu(mesh):
    """An unstructured grid whose numbers are base64, so that every bit stays."""
    stack = lambda rows: numpy.concatenate(
        [numpy.zeros(0, dtype=numpy.int64), *map(numpy.ravel, rows)]
    )
    widths = stack([numpy.full(len(block.data), block.data.shape[1]) for block in mesh.cells])
    kinds = stack([numpy.full(len(block.data), VTK[block.type]) for block in mesh.cells])
    cells = [
        vtu_array('connectivity', stack([block.data for block in mesh.cells])),
        vtu_array('offsets', numpy.cumsum(widths)), vtu_array('types', kinds),
    ]
    data = [vtu_array(name, stack(rows)) for name, rows in mesh.cell_data.items()]
    return '\n'.join(
        [
            '<?xml version="1.0"?>',
            '<VTKFile type="UnstructuredGrid" version="1.0" byte_order="LittleEndian" '
            'header_type="UInt64">',
            '<UnstructuredGrid>',
            '<Piece NumberOfPoints="%d" NumberOfCells="%d">' % (len(mesh.points), len(widths)),
            '<Points>', vtu_array('Points', mesh.points.astype(float), 3), '</Points>', '<Cells>',
            *cells, '</Cells>', *(['<CellData>', *data, '</CellData>'] if data else []), '</Piece>',
            '</UnstructuredGrid>', '</VTKFile>', '',
        ]
    )


def vtu_array(name, values, components=None):
    form = ('Float64', '<f8') if values.dtype.kind == 'f' else ('Int64', '<i8')
    raw = numpy.ascontiguousarray(values, dtype=form[1]).tobytes()
    packed = base64.b64encode(numpy.array([len(raw)], dtype='<u8').tobytes() + raw).decode()
    return (
        '<DataArray type="%s" Name=%s %sformat="binary">%s</DataArray>'
        % (
            form[0], quoteattr(name), 'NumberOfComponents="%d" ' % components if components else '',
            packed,
        )
    )


def read_vtu(content):
    """The mesh of a .vtu file that `write` made; others need meshio."""
    try:
        root = xml.fromstring(content)
    except (xml.ParseError, ValueError) as error:
        raise Fault('it cannot be read as vtu: %s. Mend the file or write it anew' % error)
    if (
        root.tag != 'VTKFile' or root.get('header_type') != 'UInt64' or root.get('compressor')
        or len(root.findall('.//Piece')) != 1
    ):
        raise no_meshio('vtu')
    arrays = {array.get('Name'): vtu_numbers(array) for array in root.iter('DataArray')}
    try:
        points, cells, ends, kinds = (
            arrays['Points'].reshape(-1, 3), arrays['connectivity'], arrays['offsets'],
            arrays['types'],
        )
        names = {number: kind for kind, number in VTK.items()}
        cuts = (
            [0, *(numpy.flatnonzero(numpy.diff(kinds)) + 1).tolist(), len(kinds)] if len(kinds)
            else [0]
        )
        begins = numpy.concatenate([[0], ends])
        blocks = [
            (names[int(kinds[a])], cells[begins[a]:begins[b]].reshape(b - a, -1))
            for a, b in zip(cuts, cuts[1:])
        ]
    except (KeyError, IndexError, ValueError):
        raise no_meshio('vtu')
    data = {
        array.get('Name'): [arrays[array.get('Name')][a:b] for a, b in zip(cuts, cuts[1:])]
        for array in root.iterfind('.//CellData/DataArray')
    }
    return Mesh(points, blocks, None, data)


def vtu_numbers(array):
    form = {'Float64': '<f8', 'Int64': '<i8'}.get(array.get('type'))
    if form is None or array.get('format') != 'binary':
        raise no_meshio('vtu')
    raw = base64.b64decode(array.text or '', validate=False)
    if len(raw) < 8 or len(raw) - 8 != int.from_bytes(raw[:8], 'little') or len(raw) % 8:
        raise Fault(
            'it cannot be read as vtu: the numbers of %s are cut short. Write it anew'
            % array.get('Name')
        )
    return numpy.frombuffer(raw, form, offset=8).copy()


# what files.py, meshes.py and writing.py look up in meshio's tables
extension_to_filetypes = {
    '.msh': ['gmsh'], '.vtk': ['vtk'], '.vtu': ['vtu'], '.inp': ['abaqus'], '.med': ['med'],
    '.xdmf': ['xdmf'], '.xmf': ['xdmf'], '.bdf': ['nastran'], '.nas': ['nastran'],
    '.fem': ['nastran'], '.mesh': ['medit'], '.stl': ['stl'], '.off': ['off'], '.obj': ['obj'],
}
reader_map = {form: read for forms in extension_to_filetypes.values() for form in forms}
_writer_map = {form: write for form in [*reader_map, 'gmsh22', 'vtk42']}
__version__ = 'not installed; the file was read and written by the package itself'

try:
    import meshio
    from meshio import _helpers as meshio_forms
    from meshio.gmsh import _gmsh22, _gmsh40, _gmsh41
    # and what their numbers of nodes are less than the file's
    GMSH_READERS: tuple = ((_gmsh22, 0), (_gmsh40, 1), (_gmsh41, 1))
except ImportError:
    meshio = meshio_forms = sys.modules[__name__]
    GMSH_READERS = ()
