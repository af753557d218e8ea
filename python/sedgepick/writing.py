"""Mesh files made by meshio, read back and compared; `outputs` gives them their names."""
import os
import numpy
from . import abaqus, names
from .files import GOOD, form_of, missing_words, quiet, suffix_of
from .msh import meshio, meshio_forms
from .outputs import STDOUT, Folder
from .surfaces import Fault, Marked

# of several formats that a suffix may mean, the one that is written
WRITTEN = {'.msh': 'gmsh22', '.vtk': 'vtk42'}
SETS = ('abaqus', 'med')  # formats with sets of cells and of nodes
# one file; meshio's other ways put the numbers into a second one
OPTIONS = {'gmsh22': {'binary': False}, 'xdmf': {'data_format': 'XML'}}
# formats that take one array of numbers
ONE_ARRAY = ('medit', 'su2', 'ugrid', 'netgen', 'avsucd', 'nastran', 'flac3d')
ROUNDED = 1e-6  # of the extent: a file that moves a node farther does not hold the mesh
TOLD = 1e-12    # of the extent: rounding below it is not told


def check_form(path, form):
    """That the format takes quads, before a long run."""
    points = numpy.array([[0.0, 0, 0], [1, 0, 0], [1, 1, 0], [0, 1, 0], [2, 0, 0]])
    cells, fault = (
        [
            ('quad', Marked(numpy.array([[0, 1, 2, 3]]))),
            ('triangle', Marked(numpy.array([[1, 4, 2]]))),
        ],
        None,
    )
    with Folder() as folder:
        made = os.path.join(folder, os.path.basename(path))
        for some, nodes in ((cells[:1], 4), (cells, 5)):  # a few take cells of one kind alone
            try:
                return make(made, path, form, points[:nodes], some, {}, {})
            except Fault as found:
                fault = found
    if 'it holds' in str(fault):  # of the cells of this trial
        raise Fault(
            'cannot write %s as %s: it holds no quads. Formats that take quads: %s'
            % (path, writing_form(path, form), GOOD)
        )
    raise fault


def make(made, path, form, points, blocks, named, point_sets, beams=False):
    """Makes the file of the cells (kind, Marked) that takes this path's name later, in a folder of
    its own, reads it back and compares; returns notes. `beams`: in an Abaqus file lines are
    elements, too."""
    form, notes = writing_form(path, form), []
    blocks = [block for block in blocks if len(block[1].cells)]
    if form in SETS:
        blocks, point_sets = names.as_node_sets(blocks, point_sets)
        blocks, point_sets = (
            names.with_line_nodes(blocks, point_sets, beams) if form == 'abaqus'
            else (blocks, point_sets)
        )
    else:
        blocks, point_sets = names.as_vertices(blocks, point_sets), {}
    try:
        for left_out in ((), ('vertex',), ('vertex', 'line')):
            kept = [block for block in blocks if block[0] not in left_out]
            fault = write_and_compare(made, form, points, kept, named, point_sets, notes)
            if fault is None or len(kept) == len(blocks) == 0:
                break
        if fault is not None:
            raise Fault(
                'cannot write %s as %s: %s. Formats that take quads: %s' % (path, form, fault, GOOD)
            )
    except OSError as error:
        raise Fault('cannot write %s: %s' % (path, error.strerror or error))
    if len(kept) < len(blocks):
        notes.append(
            '%s does not take cells of type %s; they are left out of the file'
            % (form, ' and '.join(k for k, _ in blocks if k in left_out))
        )
    return notes


def writing_form(path, form):
    if path == STDOUT and not form:
        raise Fault(
            '-o - writes to standard output: --to says the format, such as gmsh22, vtu or abaqus'
        )
    return (not form and WRITTEN.get(suffix_of(path))) or form_of(path, form)


def mesh_of(form, points, blocks, named, point_sets, notes):
    """(mesh, words on the numbers of groups) as meshio takes it for the format."""
    cells, words = [(kind, marked.cells) for kind, marked in blocks], []
    if form == 'med':
        mesh = meshio.Mesh(points, cells)
        names.med_groups(mesh, blocks, point_sets)
    elif form == 'abaqus':
        full = [
            (
                kind,
                names.with_all(names.with_sets(marked), 'lines' if kind == 'line' else 'surface'),
            )
            for kind, marked in blocks
        ]
        every = {name for _, marked in full for name, has in marked.sets.items() if has.any()}
        given = abaqus.labels(every | set(point_sets))
        notes += filter(None, [abaqus.label_words(given)])
        sets = {
            given[name]: [numpy.flatnonzero(marked.sets.get(name, [])) for _, marked in full]
            for name in sorted(every)
        }
        mesh = meshio.Mesh(
            points, cells, cell_sets=sets,
            point_sets={
                given[name]: nodes for name, nodes in sorted(point_sets.items()) if len(nodes)
            },
        )
    elif form == 'gmsh22':
        tags, found = names.gmsh_groups(blocks, named)
        mesh = meshio.Mesh(points, cells, cell_data=tags, field_data=found)
    else:
        tags, words = names.number_groups(blocks, named)
        mesh = meshio.Mesh(
            points, cells, cell_data=dict(list(tags.items())[:1] if form in ONE_ARRAY else tags)
        )
    return mesh, words


def write_and_compare(path, form, points, blocks, named, point_sets, notes):
    """None, or why the file does not hold the mesh."""
    mesh, words = mesh_of(form, points, blocks, named, point_sets, notes)
    try:
        with quiet() as said:
            if form == 'abaqus':
                abaqus.write(path, mesh)
            else:
                meshio.write(path, mesh, file_format=form, **OPTIONS.get(form, {}))
    except ModuleNotFoundError as error:
        return missing_words(error, form)
    except OSError:
        raise
    except (Exception, SystemExit) as error:
        return (
            'meshio fails: %s'
            % (
                ' '.join(str(error).split())[:200] or ' '.join(said.getvalue().split())[:200]
                or type(error).__name__
            )
        )
    return compare(path, form, mesh, blocks, words, notes)


def compare(path, form, given, blocks, words, notes):
    """Reads the file back: None where it has the same cells and points, or where meshio cannot read
    the format; notes on what it rounds or leaves out."""
    reader, points = (
        {'gmsh22': 'gmsh', 'vtk42': 'vtk', 'vtk51': 'vtk'}.get(form, form), given.points
    )
    if reader not in meshio_forms.reader_map:
        return None
    try:
        with quiet():
            mesh = meshio.read(path, file_format=reader)
    except (Exception, SystemExit) as error:
        return 'it cannot be read back (%s)' % ' '.join(str(error).split())[:200]
    if len(mesh.points) != len(points):
        return 'of %d nodes it holds %d' % (len(points), len(mesh.points))
    for kind, marked in blocks:
        found = [numpy.asarray(block.data) for block in mesh.cells if block.type == kind]
        if sum(map(len, found)) != len(marked.cells):
            return (
                'of %d cells of type %s it holds %d'
                % (len(marked.cells), kind, sum(map(len, found)))
            )
        if not numpy.array_equal(numpy.concatenate(found), marked.cells):
            return 'cells of type %s come back with other nodes' % kind
    there = (
        numpy.column_stack([mesh.points, numpy.zeros((len(points), 3 - mesh.points.shape[1]))])
        if numpy.ptp(points[:, 2]) else mesh.points[:, :2]
    )
    ways, extent = abs(there - points[:, :there.shape[1]]), numpy.ptp(points, axis=0).max()
    if ways.max() > ROUNDED * extent:
        return 'coordinates come back up to %.3g away' % ways.max()
    if ways.max() > TOLD * extent:
        notes.append(
            '%s rounds %d of %d coordinates, by up to %.3g'
            % (form, (ways > 0).sum(), ways.size, ways.max())
        )
    if words:
        notes.append(names_words(form, given, mesh, words))
    return None


def names_words(form, given, mesh, words):
    """What became of the names of groups in a format that has none."""
    stacked = lambda mesh, name: {
        kind: numpy.concatenate(
            [
                numpy.asarray(mesh.cell_data[name][i]).ravel() for i, block in enumerate(mesh.cells)
                if block.type == kind
            ]
        )
        for kind in {block.type for block in mesh.cells}
    }
    wanted = stacked(given, next(iter(given.cell_data)))
    for name in mesh.cell_data:
        came = stacked(mesh, name)
        if all(
            kind in came and numpy.array_equal(came[kind], numbers)
            for kind, numbers in wanted.items()
        ):
            return (
                '%s holds no names of groups; in its numbers (%s) %s'
                % (form, name, ', '.join(words))
            )
    return (
        '%s holds no groups; left out are %s'
        % (form, ', '.join(word.split(' is ', 1)[1] for word in words))
    )
