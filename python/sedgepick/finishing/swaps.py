"""Swaps of the diagonal of two triangles, to the constrained Delaunay triangulation of what quads leave."""
from .native import call


def swap(cover):
    """(cover, how many swaps): until each side of two triangles that is not locked is locally Delaunay (Lawson 1977)."""
    return call('swap', cover, 0.0)
