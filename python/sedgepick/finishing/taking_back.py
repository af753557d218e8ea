"""Quads taken back where they hold a thin triangle between them: swaps alone cannot change it there."""
import ctypes, math
from .native import call

THIN = 15.0   # degrees
ROUNDS = 6    # around a thin triangle


def take_back(cover, thin=THIN, rounds=ROUNDS):
    """(cover, how many): quads beside a triangle with an angle under `thin` degrees become triangles again, which are swapped; where that does not help, those at
    its nodes too, and so on."""
    return call('take_back', cover, 0.0, ctypes.c_double(math.sin(math.radians(thin))), ctypes.c_size_t(rounds))
