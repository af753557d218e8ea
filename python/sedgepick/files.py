"""Mesh files and their formats: what meshio reads of one, in a child process that has limits."""
import contextlib
import errno
import hashlib
import io
import os
import stat
import warnings
import numpy
from . import abaqus, apart, names, numbering, unv
from .msh import NEEDED, meshio, meshio_forms
from .reading import Watched, bulk_before, confine, fault_words, find_lacking, one_hdf5, xml_words
from .surfaces import Fault, Marked, Surface, visible

WIDTHS = {'vertex': 1, 'line': 2, 'line3': 3, 'triangle': 3, 'quad': 4}
SECOND_ORDER = {'triangle6', 'triangle7', 'quad8', 'quad9', 'triangle10'}
XML = ('vtu', 'xdmf', 'dolfin-xml')
HDF5 = ('med', 'hmf', 'h5m', 'cgns', 'xdmf')
GOOD = '.msh (Gmsh), .vtk, .vtu, .inp (Abaqus, CalculiX), .med, .xdmf, .bdf'
# formats that are read by their suffix: those that docs/COMMAND.md names and the tests try; others
# are read where --from names them
READ = {
    '.msh': 'gmsh', '.vtk': 'vtk', '.vtu': 'vtu', '.inp': 'abaqus', '.med': 'med', '.xdmf': 'xdmf',
    '.xmf': 'xdmf', '.bdf': 'nastran', '.nas': 'nastran', '.fem': 'nastran', '.mesh': 'medit',
    '.stl': 'stl', '.off': 'off', '.obj': 'obj', '.unv': 'unv',
}
GEOMETRY = ('.geo', '.step', '.stp', '.iges', '.igs', '.brep')  # what Gmsh makes a mesh of
OWN = {'unv': unv.read}  # readers of formats that meshio does not read


@contextlib.contextmanager
def quiet():
    """Takes what meshio prints; warnings of Python are not shown."""
    said = io.StringIO()
    with contextlib.redirect_stdout(
        said
    ), contextlib.redirect_stderr(said), warnings.catch_warnings():
        warnings.simplefilter('ignore')
        yield said


def form_of(path, given):
    """meshio's name of the file's format: as given, else by the suffix."""
    form = named_form(path, given)
    if form == 'tetgen':  # and meshio does not come to an end on such a file that breaks off
        raise Fault('%s: a TetGen file holds no plane mesh of quads; use one of %s' % (path, GOOD))
    return form


def suffix_of(path):
    """The end of the name that says the format, such as .vol.gz."""
    words = os.path.basename(path).lower().split('.')
    ends = ['.' + '.'.join(words[-n:]) for n in (2, 1) if len(words) > n]
    return next(
        (end for end in ends if end in meshio_forms.extension_to_filetypes),
        ends[-1] if ends else '',
    )


def named_form(path, given):
    known = set(meshio_forms.reader_map) | set(meshio_forms._writer_map) | set(OWN)
    if given:
        if given not in known:
            raise Fault(
                'unknown format %s; the formats are: %s' % (given, ', '.join(sorted(known)))
            )
        return given
    found = (
        meshio_forms.extension_to_filetypes.get(suffix_of(path))
        or [form for form in OWN if READ.get(suffix_of(path)) == form]
    )
    if not found:
        raise Fault(
            "unknown format of %s: nothing is known of the suffix '%s'; rename it, say the format "
            "with --from or --to, or take one of %s"
            % (os.path.basename(path), suffix_of(path), GOOD)
        )
    return 'gmsh' if 'gmsh' in found else found[0]


def reading_form(path, given):
    """The format in which a file is read: as given, else one of the list, by the suffix."""
    if not given and suffix_of(path) in GEOMETRY:
        raise Fault(
            'it is a geometry and no mesh: mesh it first, as in gmsh -2 %s -o slab.msh'
            % os.path.basename(path)
        )
    form = form_of(path, given)
    if not given and READ.get(suffix_of(path)) != form:
        raise Fault(
            '%s files are read where --from %s says so: the readers of such formats are not tried '
            'here. Formats that are: %s'
            % (form, form, ', '.join(sorted(READ)))
        )
    if form not in meshio_forms.reader_map and form not in OWN:
        raise Fault('meshio writes %s and does not read it; use one of %s' % (form, GOOD))
    return form


@contextlib.contextmanager
def copy_file(path, most):
    """(name of a copy that nobody else can change, SHA-256 of its bytes). It is in memory, and gone
    afterwards; a file of over so many megabytes is refused."""
    if os.path.isdir(path):
        raise Fault('it is a folder; name a mesh file')
    try:
        given = os.open(path, os.O_RDONLY | os.O_NONBLOCK | os.O_NOCTTY)
    except FileNotFoundError:
        raise Fault('there is no such file')
    except PermissionError:
        raise Fault('it may not be read: you have no permission')
    except OSError as error:
        raise Fault(
            'it is a device, a FIFO or a socket: name a regular file'
            if error.errno in (errno.ENXIO, errno.ENODEV)
            else 'it cannot be opened: %s' % error.strerror
        )
    copy, digest = os.memfd_create('sedgepick'), hashlib.sha256()
    try:
        if not stat.S_ISREG(os.fstat(given).st_mode):
            raise Fault('it is a device, a FIFO or a socket: name a regular file')
        while part := os.read(given, 1 << 20):
            if os.fstat(copy).st_size + len(part) > most << 20:
                raise Fault(
                    'it has over %d MB, and reading takes more memory than that; --read-memory '
                    'allows more'
                    % most
                )
            digest.update(part)
            while part:
                part = part[os.write(copy, part):]
        if not os.fstat(copy).st_size:
            raise Fault('it is empty: write the mesh anew')
        yield '/proc/self/fd/%d' % copy, digest.hexdigest()
    finally:
        os.close(given)
        os.close(copy)


def read(path, form=None, limits=apart.Limits()):
    """The surface of a file, and the SHA-256 of the bytes that it was made of."""
    surface, sha256 = take_from(path, form, limits, surface_of)
    surface.name, surface.sha256 = visible(os.path.basename(path)), sha256
    show_names(surface)
    return surface


def take_from(path, form, limits, take):
    """(what `take` makes of the mesh that meshio reads, SHA-256 of the bytes); both in a child with
    limits."""
    with copy_file(path, limits.megabytes) as (copy, sha256):
        form = reading_form(path, form)
        try:
            return (
                apart.run(lambda: read_here(copy, form, take), limits, 'reading it as %s' % form),
                sha256,
            )
        except Fault as fault:
            raise Fault(
                visible(
                    str(fault).replace(copy, os.path.basename(path)).replace(
                        os.path.dirname(copy) + os.sep, ''
                    )
                )
            )


def show_names(surface):
    """Names of groups as they may be shown and written: control characters escaped."""
    own = [
        surface.hard, surface.names,
        *(
            marked.sets
            for marked in (surface.triangles, surface.quads, surface.lines, surface.vertices)
            if marked
        ),
    ]
    if all(name == visible(name) for named in own for name in named):
        return
    for named in own:
        for name in [name for name in named if name != visible(name)]:
            named[visible(name)] = named.pop(name)
    surface.notes.append(
        'names of groups have control characters; they are shown and written escaped'
    )


def read_here(path, form, take):
    """What is taken of a file, read in this process, which from then on opens no other."""
    numbering.watch()
    watched = None
    try:
        with quiet() as said, numpy.errstate(all='ignore'):
            if form in HDF5:
                one_hdf5(path, form == 'xdmf')
            confine(path)
            with Watched(
                path, '**' if form == 'abaqus' else None,
                bulk_before(path) if form == 'nastran' else '',
            ) as watched:
                mesh = OWN[form](path) if form in OWN else meshio.read(path, file_format=form)
                mesh = abaqus.repair(path, mesh) if form == 'abaqus' else mesh
                numbering.check(path, form)
    except ModuleNotFoundError as error:
        raise Fault(missing_words(error, form))
    except (Fault, MemoryError):
        raise
    except (Exception, SystemExit) as error:
        words = (
            (form in XML and xml_words(path))
            or '; '.join(
                filter(None, (watched and watched.place(), fault_words(error, said.getvalue())))
            )
            or type(error).__name__
        )
        raise Fault(
            'meshio cannot read it as %s: %s. Mend the file or write it anew; if it has another '
            'format, say it with --from'
            % (form, words)
        )
    words = find_lacking(path, form, sum(len(block.data) for block in mesh.cells))
    if words:
        raise Fault('it breaks off: %s. Write it anew' % words)
    return take(mesh)


def missing_words(error, form):
    if error.name == 'meshio':
        return NEEDED % form
    return (
        'meshio needs the Python module %s for %s files: install it (Debian: apt install '
        'python3-%s; elsewhere: pip install %s)'
        % (error.name, form, error.name.lower(), error.name)
    )


def surface_of(mesh):
    """What the command takes of a mesh, but for the file's name."""
    kinds = {}
    for block in mesh.cells:
        kinds[block.type] = kinds.get(block.type, 0) + len(block.data)
        if (
            numpy.ndim(block.data) != 2
            or numpy.shape(block.data)[1] != WIDTHS.get(block.type, numpy.shape(block.data)[1])
        ):
            raise Fault(
                'cells of type %s have %d nodes each: mend the file or write it anew'
                % (block.type, numpy.size(block.data) // max(len(block.data), 1))
            )
    for kind in SECOND_ORDER & set(kinds):
        raise Fault(
            "%d cells of second order (%s): only triangles of three nodes are taken; write the "
            "mesh with order 1 (Gmsh: Mesh.ElementOrder = 1)"
            % (kinds[kind], kind)
        )
    if not kinds.get('triangle'):
        raise Fault(
            'no triangles; the file has %s. Mesh its surface with triangles first'
            % (', '.join('%d cells of type %s' % (n, k) for k, n in kinds.items()) or 'no cells')
        )
    others = {
        kind: count for kind, count in kinds.items()
        if kind not in ('triangle', 'quad', 'line', 'line3', 'vertex')
    }
    if others:
        raise Fault(
            'the file has %s beside its triangles, and they would be lost: write a file with '
            'triangles and quads alone'
            % ' and '.join('%d cells of type %s' % (count, kind) for kind, count in others.items())
        )
    points = numpy.array(mesh.points, dtype=float)
    if points.shape[1] == 2:
        points = numpy.column_stack([points, numpy.zeros(len(points))])
    sets = names.cell_sets(mesh)
    triangles, quads, lines, vertices = (
        gather_cells(mesh, sets, some, width)
        for some, width in (
            (('triangle',), 3), (('quad',), 4), (('line', 'line3'), 2), (('vertex',), 1)
        )
    )
    for word, cells in (
        ('triangle', triangles.cells), ('quad', quads.cells), ('line', lines.cells),
        ('point', vertices.cells),
    ):
        check_nodes(word, cells, len(points))
    found = Surface(
        '', points, triangles, lines, vertices,
        hard_nodes(mesh, numpy.concatenate([triangles.cells.ravel(), quads.cells.ravel()]), lines),
        names.physical(mesh),
    )
    if len(quads.cells):
        found.quads = quads
        found.notes.append(
            '%s kept as %s; the verdict is on what is made of the triangles'
            % (
                ('%d quads of the file are' % len(quads.cells), 'they are') if len(quads.cells) > 1
                else ('a quad of the file is', 'it is')
            )
        )
    found.notes += getattr(mesh, 'told', [])
    return found


def check_nodes(word, cells, count):
    """Every node of the cells is there."""
    wrong = numpy.argwhere((cells >= count) | (cells < 0))
    if len(wrong):
        raise Fault(
            '%s %d names node %d, and the file has the nodes 1 to %d: mend that cell or write the '
            'file anew'
            % (word, wrong[0, 0] + 1, cells[tuple(wrong[0])] + 1, count)
        )


def gather_cells(mesh, named, kinds, width):
    """The cells of these kinds in the file's order, with tags and sets."""
    places = [i for i, block in enumerate(mesh.cells) if block.type in kinds]
    stack = lambda rows, empty: numpy.concatenate(rows) if rows else empty
    cells = stack(
        [numpy.asarray(mesh.cells[i].data)[:, :width].astype(numpy.int64) for i in places],
        numpy.zeros((0, width), dtype=numpy.int64),
    )
    tags = {
        name: stack(
            [whole_numbers(mesh.cell_data[name][i], len(mesh.cells[i].data)) for i in places],
            numpy.zeros(0, dtype=numpy.int64),
        )
        for name in names.TAGS if name in mesh.cell_data
    }
    sets = {
        name: stack([rows[i] for i in places], numpy.zeros(0, dtype=bool))
        for name, rows in named.items()
    }
    for name, (number, dimension) in names.physical(mesh).items():
        if name not in sets and 'gmsh:physical' in tags:
            sets[name] = (tags['gmsh:physical'] == number) & (dimension == min(width - 1, 2))
    return Marked(cells, tags, sets)


def whole_numbers(numbers, count):
    """A whole number for each cell; 0 where it is none."""
    numbers = (
        numpy.asarray(numbers, dtype=float).reshape(count, -1)[:, 0] if count else numpy.zeros(0)
    )
    return numpy.where(abs(numbers) < 2.0 ** 53, numbers, 0).astype(numpy.int64)


def hard_nodes(mesh, triangles, lines):
    """Nodes that the file marks: points of Gmsh's geometry, and node sets that do not just have
    every node, or those of a group of lines once more."""
    used, hard = numpy.unique(triangles), {}
    place = (mesh.point_data or {}).get('gmsh:dim_tags')
    if place is not None:
        hard['point of the geometry'] = numpy.intersect1d(
            numpy.flatnonzero(numpy.asarray(place)[:, 0] == 0), used
        )
    for name, nodes in names.node_sets(mesh).items():
        nodes = numpy.intersect1d(nodes, used)
        again = (
            name in lines.sets
            and numpy.array_equal(nodes, numpy.unique(lines.cells[lines.sets[name]]))
        )
        if 0 < len(nodes) < len(used) and not again:
            hard[name] = nodes
    return hard
