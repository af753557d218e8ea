"""The shared library: where it is, and its functions.

Looked for, in this order: the file that the environment variable SEDGEPICK_LIBRARY names; beside
this package; in the lib folder that this package is installed under; target/shared of a checkout,
where tools/shared writes it."""
from __future__ import annotations
import ctypes
import os
import threading
from typing import Any

VERSION = '0.3.0'
ABI = 2  # the number of the interface, SEDGEPICK_ABI of the header
SONAME = 'libsedgepick.so.%d' % ABI
VARIABLE = 'SEDGEPICK_LIBRARY'
HERE = os.path.dirname(os.path.abspath(__file__))
CHECKOUT = os.path.dirname(os.path.dirname(HERE))

DOUBLES = ctypes.POINTER(ctypes.c_double)
NUMBERS = ctypes.POINTER(ctypes.c_uint32)
SIZES = ctypes.POINTER(ctypes.c_size_t)
LENGTH = ctypes.c_size_t
REAL = ctypes.c_double
ANSWER: list[Any] = [SIZES, LENGTH]
SLICES: list[Any] = [
    DOUBLES, LENGTH, NUMBERS, LENGTH, NUMBERS, LENGTH, NUMBERS, LENGTH, NUMBERS, LENGTH, NUMBERS,
    LENGTH, NUMBERS, LENGTH, DOUBLES, LENGTH,
]
STATED: list[Any] = [
    LENGTH, LENGTH, LENGTH, LENGTH, LENGTH, REAL, ctypes.c_uint32, REAL, REAL, REAL, REAL, LENGTH,
    ctypes.c_uint32,
]
TRACED = SLICES + [NUMBERS, LENGTH] + STATED
RUN_FRONT = TRACED + ANSWER
JOB = TRACED + [SIZES, LENGTH] + ANSWER
PREVIEW = SLICES + STATED + [LENGTH, LENGTH] + ANSWER
REPLAY: list[Any] = SLICES + [LENGTH] * 5 + ANSWER
SHEET: list[Any] = [
    DOUBLES, LENGTH, NUMBERS, LENGTH, DOUBLES, LENGTH, LENGTH, LENGTH, SIZES, LENGTH,
]
FILING_ORDER: list[Any] = [DOUBLES, LENGTH, NUMBERS, LENGTH, NUMBERS, LENGTH, LENGTH, LENGTH] * 2
SMALL_MESH: list[Any] = [ctypes.c_uint32, LENGTH, NUMBERS, LENGTH]
ACCEPT: list[Any] = (
    [DOUBLES, LENGTH, NUMBERS, LENGTH] * 2
    + [NUMBERS, LENGTH] * 5
    + [LENGTH] * 6
    + [REAL, REAL]
    + ANSWER
)

loaded: ctypes.CDLL | None = None
loading = threading.Lock()


class NoLibrary(Exception):
    """The shared library is not where it is looked for, or does not load."""


def places() -> list[str]:
    """Where the library may be, the first that exists taken."""
    named = os.environ.get(VARIABLE)
    if named:
        return [named]
    found = [os.path.join(HERE, SONAME)]
    folder = HERE
    while os.path.dirname(folder) != folder:
        folder = os.path.dirname(folder)
        if os.path.basename(folder) == 'lib':
            found.append(os.path.join(folder, SONAME))
    return found + [os.path.join(CHECKOUT, 'target', 'shared', SONAME)]


def load() -> ctypes.CDLL:
    """The library, loaded once."""
    global loaded
    with loading:
        if loaded is None:
            loaded = open_library()
        return loaded


def open_library() -> ctypes.CDLL:
    path = next((place for place in places() if os.path.exists(place)), None)
    if path is None:
        raise NoLibrary(
            '%s is not there; looked for: %s. In a checkout `tools/archive library && '
            'tools/shared` makes it; %s names another place'
            % (SONAME, ', '.join(places()), VARIABLE)
        )
    try:
        library = ctypes.CDLL(path)
        check_version(library, path)
        for function, takes in (
            (library.sedgepick_run_front_with, RUN_FRONT), (library.sedgepick_job, JOB),
            (library.sedgepick_preview, PREVIEW), (library.sedgepick_replay, REPLAY),
            (library.sedgepick_sheet, SHEET), (library.sedgepick_filing_order, FILING_ORDER),
            (library.sedgepick_small_mesh, SMALL_MESH), (library.sedgepick_accept, ACCEPT),
        ):
            function.argtypes, function.restype = takes, LENGTH
    except (OSError, AttributeError) as error:
        raise NoLibrary('%s does not load: %s' % (path, error))
    return library


def check_version(library: ctypes.CDLL, path: str) -> None:
    """That the library takes the calls of this package: they are of one version and one interface.
    A call with other parameters would end in a crash."""
    found: tuple[str, int | str]
    try:
        found = said(library, 'version'), abi_of(library)
    except AttributeError:
        found = ('of an unknown version', 'unknown')
    if found != (VERSION, ABI):
        raise NoLibrary(
            '%s is sedgepick %s with interface %s, and this package is %s with interface %d: '
            'install both anew by tools/install, or name another library in %s'
            % (path, *found, VERSION, ABI, VARIABLE)
        )


def said(library: ctypes.CDLL, name: str) -> str:
    """What a function without parameters says in words."""
    function = getattr(library, 'sedgepick_' + name)
    function.argtypes, function.restype = [], ctypes.c_char_p
    words: bytes = function()
    return words.decode('ascii', 'replace')


def abi_of(library: ctypes.CDLL) -> int:
    library.sedgepick_abi.argtypes, library.sedgepick_abi.restype = [], LENGTH
    return int(library.sedgepick_abi())


def version() -> str:
    """The version that the library says of itself."""
    return said(load(), 'version')


def abi() -> int:
    """The number of the library's interface."""
    return abi_of(load())


def commit() -> str:
    """The commit that the library was built at."""
    return said(load(), 'commit')


def build() -> str:
    """Its build: the SHA-256 of the proved archive, and the compiler of the layer around it."""
    return said(load(), 'build')
