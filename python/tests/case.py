"""What the tests of the command share."""
import os, shutil, subprocess, sys, tempfile, unittest
from common import PACKAGES, make_library

try:
    import meshio, numpy
    from sedgepick import files
except ImportError:
    meshio = None

COMMAND = os.path.join(PACKAGES, 'sedgepick-mesh')


def set_up():
    if meshio is None:
        raise unittest.SkipTest('numpy and meshio are not installed for %s' % sys.executable)
    make_library()


class Case(unittest.TestCase):
    def setUp(self):
        self.folder = tempfile.mkdtemp()
        self.addCleanup(shutil.rmtree, self.folder)
        self.out = os.path.join(self.folder, 'out.msh')

    def path(self, name):
        return os.path.join(self.folder, name)

    def run_command(self, *words):
        return subprocess.run([sys.executable, COMMAND, *words], capture_output=True, text=True)

    def good(self, *words, status=0):
        ran = self.run_command(*words)
        self.assertEqual(ran.returncode, status, ran.stderr)
        self.assertNotIn('Traceback', ran.stderr)
        return ran

    def refused(self, pattern, *words):
        ran = self.run_command(*words)
        self.assertEqual(ran.returncode, 1, ran.stdout + ran.stderr)
        self.assertNotIn('Traceback', ran.stderr)
        self.assertNotIn('a fault of the command itself', ran.stderr)
        self.assertRegex(ran.stderr, pattern)
        self.assertFalse(os.path.exists(self.out))

    def mesh(self, path=None, form='gmsh'):
        with files.quiet():
            mesh = meshio.read(path or self.out, file_format=form)
        stack = lambda kind: [tuple(map(int, cell)) for block in mesh.cells if block.type == kind for cell in block.data]
        return mesh, stack('quad'), stack('triangle')

    def stored(self, points, cells, name='in.vtk', **more):
        path = self.path(name)
        with files.quiet():
            meshio.write(path, meshio.Mesh(numpy.array(points, dtype=float), [(kind, numpy.array(rows)) for kind, rows in cells], **more), file_format='vtk')
        return path
