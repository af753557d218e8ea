"""Quads taken in: those of `run_front` that neither drop nor add a node."""
import ctypes
import numpy
from .native import call


def take_in(cover, quads, least_jacobian):
    """(cover, how many): each of the quads in turn takes the place of two triangles, where it is good and its sides are there or can be brought in by flips.

    One that has another node inside, a locked edge across it, or the place of a quad before it is passed over, and changes nothing."""
    quads = numpy.ascontiguousarray(numpy.asarray(quads, dtype=numpy.uint32).reshape(-1, 4))
    return call('take_in', cover, least_jacobian, ctypes.c_void_p(quads.ctypes.data), ctypes.c_size_t(len(quads)))
