"""The steps' inner loops, which are in c/finishing, called on the arrays of a cover."""
import ctypes
import numpy
from .. import library
from .covers import NONE, Overlaps

NO_MEMORY, BAD_NODE, SIDE_TWICE = 1, 2, 3  # what a step may return; 0 is done


class Lent(ctypes.Structure):
    """sedgepick_cover of c/finishing/finishing.h."""
    _fields_ = [('points', ctypes.c_void_p), ('point_count', ctypes.c_size_t), ('cells', ctypes.c_void_p), ('groups', ctypes.c_void_p),
                ('count', ctypes.c_size_t), ('capacity', ctypes.c_size_t), ('locked', ctypes.c_void_p), ('locked_count', ctypes.c_size_t),
                ('least_jacobian', ctypes.c_double), ('largest_cosine', ctypes.c_double)]


def call(name, cover, least_jacobian, *words):
    """(cover, how often the step did what it does): the step of this name, with what it takes beside the cover."""
    count = len(cover.cells)
    room = count + int((cover.cells[:, 3] != NONE).sum())  # a quad may become two triangles
    cells, groups = numpy.full((room, 4), NONE, dtype=numpy.uint32), numpy.zeros(room, dtype=numpy.uint32)
    cells[:count], groups[:count] = cover.cells, cover.groups
    points, locked = numpy.ascontiguousarray(cover.points), numpy.ascontiguousarray(cover.locked)
    lent = Lent(points.ctypes.data, len(points), cells.ctypes.data, groups.ctypes.data, count, room, locked.ctypes.data, len(locked),
                least_jacobian, cover.largest_cosine)
    done, function = ctypes.c_size_t(), getattr(library.load(), 'sedgepick_finish_' + name)
    function.restype = ctypes.c_size_t
    fault = function(ctypes.byref(lent), *words, ctypes.byref(done))
    if fault == NO_MEMORY:
        raise MemoryError('no memory for the finishing pass')
    if fault == BAD_NODE:
        raise ValueError('a cell or a locked edge names a node that is not there')
    if fault == SIDE_TWICE:
        raise Overlaps('two cells lie on the same side of an edge')
    return cover.with_cells(cells[:lent.count], groups[:lent.count]), done.value
