"""Poor quads replaced by better ones around them."""
import ctypes
from .native import call

REACH = 200  # states that a walk around a quad looks at


def improve(cover, least_jacobian, reach=REACH):
    """(cover, how many): a quad under the limit is cut in two, and one half walks around to the other over quads that pass it. Where it cannot, the quad stays."""
    return call('improve', cover, least_jacobian, ctypes.c_size_t(reach))
