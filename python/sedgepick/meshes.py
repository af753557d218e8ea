"""The cells of any plane mesh file: its nodes, quads and triangles, as they stand in it."""
import numpy
from .apart import Limits
from .files import quiet, take_from
from .msh import meshio, meshio_forms
from .surfaces import Fault

PLANE = ('quad', 'triangle', 'line', 'line3', 'vertex')
# of formats that are read under another name than they are written
READERS = {'gmsh22': 'gmsh', 'vtk42': 'vtk', 'vtk51': 'vtk'}


def read_written(path, form):
    """(points, quads, triangles) of a file that was just written; None where meshio does not read
    its format."""
    form = READERS.get(form, form)
    if form not in meshio_forms.reader_map:
        return None
    with quiet():
        return cells_of(meshio.read(path, file_format=form))


def cells_of(mesh):
    """(points, quads, triangles) of what meshio read."""
    stack = lambda kind, width: numpy.concatenate(
        [numpy.zeros((0, width), dtype=numpy.int64)]
        + [
            numpy.asarray(block.data, dtype=numpy.int64) for block in mesh.cells
            if block.type == kind
        ]
    )
    return numpy.asarray(mesh.points, dtype=float), stack('quad', 4), stack('triangle', 3)


def read_any(path, form=None):
    """(points, quads, triangles, the places of both among the file's cells, SHA-256 of its bytes);
    a Fault in words where it cannot be read."""
    found, sha256 = take_from(path, form, Limits(), plane)
    return (*found, sha256)


def plane(mesh):
    """The plane cells of a mesh, and their places."""
    others = {
        block.type: len(block.data) for block in mesh.cells
        if block.type not in PLANE and len(block.data)
    }
    if others:
        raise Fault(
            'it has %s: quads of four nodes and triangles of three are judged'
            % ' and '.join('%d cells of type %s' % (count, kind) for kind, count in others.items())
        )
    return (*cells_of(mesh), places(mesh, 'quad'), places(mesh, 'triangle'))


def places(mesh, kind):
    """The place of each cell of a kind among all cells of the file, from 1."""
    found, before = [numpy.zeros(0, dtype=numpy.int64)], 1
    for block in mesh.cells:
        if block.type == kind:
            found.append(numpy.arange(before, before + len(block.data)))
        before += len(block.data)
    return numpy.concatenate(found)
