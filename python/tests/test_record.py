"""Tests of the record that a report is: which bytes were read and written, by which library, with which options."""
import contextlib, hashlib, io, os, re, shutil, unittest
from case import Case, meshio, set_up
from common import FILES, grid

if meshio:
    import numpy
    from sedgepick import command, files, library, parts, surfaces

L_SLAB = os.path.join(FILES, 'l-slab-41.msh')


def setUpModule():
    set_up()


def sha256(path):
    with open(path, 'rb') as file:
        return hashlib.sha256(file.read()).hexdigest()


class Record(Case):
    def report(self, *words, status=0):
        path = self.path('report.txt')
        self.good(*words, '--report', path, status=status)
        with open(path) as file:
            return file.read()

    def test_digests(self):
        words = self.report(L_SLAB, '-o', self.out)
        self.assertRegex(words, r'SHA-256 of l-slab-41.msh +%s\n' % sha256(L_SLAB))
        self.assertRegex(words, r'SHA-256 of out.msh +%s\n' % sha256(self.out))

    def test_one_name(self):
        """The file that is read and the one that is written can be told apart."""
        os.mkdir(self.path('out'))
        made = self.path('out/l-slab-41.msh')
        words = self.report(L_SLAB, '-o', made)
        self.assertRegex(words, r'SHA-256 of l-slab-41.msh as read +%s\n' % sha256(L_SLAB))
        self.assertRegex(words, r'SHA-256 of l-slab-41.msh as written +%s\n' % sha256(made))

    def test_a_file_that_is_exchanged_meanwhile(self):
        """The digest is that of the bytes that were meshed."""
        own = shutil.copy(L_SLAB, self.path('own.msh'))
        before, plain = sha256(own), parts.ran

        def exchanged(*words, **more):
            shutil.copy(os.path.join(FILES, 'columns.msh'), own)
            return plain(*words, **more)
        parts.ran = exchanged
        try:
            with contextlib.redirect_stdout(io.StringIO()):
                self.assertEqual(command.main([own, '-o', self.out, '--report', self.path('r.txt')]), 0)
        finally:
            parts.ran = plain
        self.assertNotEqual(sha256(own), before)
        with open(self.path('r.txt')) as file:
            self.assertRegex(file.read(), r'SHA-256 of own.msh +%s\n' % before)

    def test_library_and_options(self):
        words = self.report(L_SLAB, '-o', self.out, '--size', '0.5', '--stop', '1')
        self.assertRegex(words, r'library +sedgepick %s, interface %d\n' % (re.escape(library.VERSION), library.ABI))
        self.assertRegex(words, r'build +archive [0-9a-f]{64}, .*\d\.\d')
        self.assertRegex(words, r'options +.*l-slab-41.msh -o .*out.msh --size 0.5 --stop 1')

    @unittest.skipUnless(shutil.which('gpmetis'), 'METIS is not installed')
    def test_version_of_metis(self):
        points, triangles = grid(50, 50)
        words = self.report(self.stored(points, [('triangle', triangles)]), '-o', self.out, '--size', '0')
        self.assertRegex(words, r'parts +\d+ \(METIS \d+\.\d+[.\d]*\)')

    def test_metis_missing_is_told(self):
        points, triangles = grid(50, 50)
        path, before = self.stored(points, [('triangle', triangles)]), os.environ['PATH']
        os.environ['PATH'] = self.folder
        try:
            ran = self.good(path, '-o', self.out, '--size', '0')
        finally:
            os.environ['PATH'] = before
        self.assertIn('note: the parts are cut by bisection, since METIS is not installed', ran.stderr)


XDMF = """<Xdmf Version="3.0"><Domain><Grid Name="Grid"><Geometry GeometryType="XYZ"><DataItem DataType="Float" Dimensions="4 3" Format="%s" Precision="8">%s</DataItem>
</Geometry><Topology TopologyType="Triangle" NumberOfElements="2"><DataItem DataType="Int" Dimensions="2 3" Format="XML" Precision="8">0 1 2 0 2 3</DataItem></Topology></Grid>
</Domain></Xdmf>"""
INP = '*NODE\n1, 0, 0, 0\n2, 1, 0, 0\n3, 1, 1, 0\n4, 0, 1, 0\n*ELEMENT, TYPE=S3, ELSET=a\n1, 1, 2, 3\n2, 1, 3, 4\n'


class External(Case):
    """Files that a mesh file names beside itself are not read."""

    def put(self, name, words):
        with open(self.path(name), 'w') as file:
            file.write(words)
        return self.path(name)

    def says(self, path, name):
        with self.assertRaisesRegex(surfaces.Fault, 'it names another file, %s' % re.escape(name)):
            files.read(path)

    def test_include(self):
        self.put('other.inp', INP)
        self.says(self.put('a.inp', INP + '*INCLUDE, INPUT=other.inp\n'), 'other.inp')
        self.says(self.put('a.inp', INP + '*INCLUDE, INPUT=/etc/hostname\n'), '/etc/hostname')
        os.mkfifo(self.path('fifo'))
        self.says(self.put('a.inp', INP + '*INCLUDE, INPUT=%s\n' % self.path('fifo')), self.path('fifo'))

    def test_xdmf(self):
        h5py = self.hdf5()
        with h5py.File(self.path('x.h5'), 'w') as file:
            file['data0'] = numpy.array([[0, 0, 0], [1, 0, 0], [1, 1, 0], [0, 1, 0.0]])
        self.says(self.put('a.xdmf', XDMF % ('HDF', 'x.h5:/data0')), 'x.h5')
        self.says(self.put('a.xdmf', XDMF % ('Binary', self.path('x.h5'))), self.path('x.h5'))
        self.assertEqual(len(files.read(self.put('a.xdmf', XDMF % ('XML', '0 0 0 1 0 0 1 1 0 0 1 0'))).points), 4)

    def test_med(self):
        h5py, path = self.hdf5(), self.path('a.med')
        given = os.path.join(FILES, 'l-slab-meshio.med')
        for change in (lambda file: file.__setitem__('more', h5py.ExternalLink('/other.h5', '/a')),
                       lambda file: file.create_dataset('more', shape=(2,), dtype='f8', external=[('/other.h5', 0, 16)])):
            shutil.copy(given, path)
            with h5py.File(path, 'a') as file:
                change(file)
            self.says(path, '/other.h5')
        self.assertEqual(files.read(given).sha256, sha256(given))

    def hdf5(self):
        try:
            import h5py
        except ImportError:
            self.skipTest('h5py is not installed')
        return h5py


if __name__ == '__main__':
    unittest.main()
