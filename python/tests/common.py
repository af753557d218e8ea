"""What the tests share: the library, and meshes to run."""
import os, subprocess, sys

HERE = os.path.dirname(os.path.abspath(__file__))
PACKAGES = os.path.dirname(HERE)
ROOT = os.path.dirname(PACKAGES)
ARCHIVE = os.environ.get('SEDGEPICK_ARCHIVE') or os.path.join(ROOT, 'target', 'staticlib', 'liblibrary.a')
FILES = os.path.join(ROOT, 'examples', 'files')
sys.dont_write_bytecode = True
sys.path.insert(0, PACKAGES)


def make_library():
    """The shared library of the archive, or the end of the tests with words."""
    os.environ.pop('SEDGEPICK_LIBRARY', None)
    if os.environ.get('SEDGEPICK_TESTS_MADE'):  # by tools/python-tests, once for all
        return
    made = subprocess.run([os.path.join(ROOT, 'tools', 'shared'), ARCHIVE], capture_output=True, text=True)
    if made.returncode:
        sys.exit('the tests need the proved library: %s' % made.stderr.strip())


def grid(columns, rows, step=1.0):
    """Points and triangles of a rectangle, each square cut in two."""
    points = [(step * i, step * j, 0.0) for j in range(rows + 1) for i in range(columns + 1)]
    triangles = []
    for j in range(rows):
        for i in range(columns):
            a = j * (columns + 1) + i
            triangles += [(a, a + 1, a + columns + 2), (a, a + columns + 2, a + columns + 1)]
    return points, triangles
