"""Tests of reading strangers' files: the formats that are read, the limits of the child that reads, and names that are shown."""
import os, signal, struct, time, unittest, zlib
from case import Case, meshio, set_up
from common import FILES

if meshio:
    import numpy
    from sedgepick import apart, files, surfaces

INP = '*NODE\n1, 0, 0, 0\n2, 1, 0, 0\n3, 1, 1, 0\n4, 0, 1, 0\n*ELEMENT, TYPE=S3, ELSET=%s\n1, 1, 2, 3\n2, 1, 3, 4\n'
MSH = ('$MeshFormat\n2.2 0 8\n$EndMeshFormat\n$Nodes\n4\n1 0 0 0\n2 1 0 0\n3 1 1 0\n%d 0 1 0\n$EndNodes\n'
       '$Elements\n2\n1 2 2 1 1 1 2 3\n2 2 2 1 1 1 3 %d\n$EndElements\n')
MSH41 = ('$MeshFormat\n4.1 0 8\n$EndMeshFormat\n$Nodes\n1 4 1 4\n2 1 0 4\n1\n2\n3\n%d\n0 0 0\n1 0 0\n1 1 0\n0 1 0\n$EndNodes\n'
         '$Elements\n1 2 1 2\n2 1 2 2\n1 1 2 3\n2 1 3 %d\n$EndElements\n')
BDF = 'BEGIN BULK\nGRID,1,,0.,0.,0.\nGRID,2,,1.,0.,0.\nGRID,3,,1.,1.,0.\nGRID,%d,,0.,1.,0.\nCTRIA3,1,1,1,2,3\nCTRIA3,2,1,1,3,%d\nENDDATA\n'


def setUpModule():
    set_up()


class Apart(Case):
    def put(self, name, content):
        with open(self.path(name), 'wb') as file:
            file.write(content if isinstance(content, bytes) else content.encode())
        return self.path(name)

    def says(self, pattern, name, content, **more):
        begin = time.monotonic()
        with self.assertRaisesRegex(surfaces.Fault, pattern):
            files.read(self.put(name, content), **more)
        self.assertLess(time.monotonic() - begin, 20)


class Formats(Apart):
    def test_list(self):
        """Formats are read by the suffixes that docs/COMMAND.md names; each has a stored file, others need --from."""
        with open(os.path.join(os.path.dirname(os.path.dirname(FILES)), 'docs', 'COMMAND.md')) as file:
            told = file.read()
        for suffix in files.READ:
            self.assertTrue(suffix in told, suffix)
        stored = {os.path.splitext(name)[1] for name in os.listdir(FILES)}
        self.assertEqual({files.READ[suffix] for suffix in files.READ}, {files.READ[suffix] for suffix in stored & set(files.READ)})
        for suffix in sorted(set(files.meshio_forms.extension_to_filetypes) - set(files.READ)):
            self.says('files are read where --from .* says so|TetGen', 'a' + suffix, 'x')

    def test_others_by_name(self):
        self.refused('avsucd files are read where --from avsucd says so', self.put('a.avs', '3 1 0 0 0\n1 0 0 0\n2 1 0 0\n3 0 1 0\n1 1 tri 1 2 3\n'), '-o', self.out)
        self.assertEqual(self.run_command(self.path('a.avs'), '-o', self.out, '--from', 'avsucd').returncode, 0)

    def test_no_regular_file(self):
        os.mkfifo(self.path('fifo.msh'))
        self.refused('it is a device, a FIFO or a socket', self.path('fifo.msh'), '-o', self.out)
        self.refused('it is a device, a FIFO or a socket', '/dev/zero', '-o', self.out, '--from', 'gmsh')


class Limits(Apart):
    def test_memory(self):
        more = 'takes over 1024 MB of memory.*--read-memory allows more'
        self.says(more, 'tag.msh', MSH % (500000000, 500000000))
        for kind in ('NSET', 'ELSET'):
            self.says(more, 'steps.inp', INP % 'a' + '*%s, %s=n, GENERATE\n1, 400000000, 1\n' % (kind, kind))
        self.says('takes over 64 MB of memory', 'tag.msh', MSH % (60000000, 60000000), limits=apart.Limits(10.0, 64))
        self.assertEqual(len(files.read(self.put('tag.msh', MSH % (200000, 200000))).points), 4)
        self.refused('takes over 64 MB', self.put('tag.msh', MSH % (60000000, 60000000)), '-o', self.out, '--read-memory', '64')

    def test_a_file_of_gigabytes(self):
        """It is not copied to its end."""
        with open(self.path('a.msh'), 'wb') as file:
            file.truncate(1 << 40)
        self.refused('it has over 64 MB', self.path('a.msh'), '-o', self.out, '--read-memory', '64')

    def test_packed_data(self):
        """A few bytes that unpack to gigabytes."""
        blocks, size = 1 << 12, 1 << 20
        one = zlib.compress(b'\\0' * size, 9)
        head = struct.pack('<%dI' % (3 + blocks), blocks, size, 0, *[len(one)] * blocks)
        import base64
        words = base64.b64encode(head) + base64.b64encode(one * blocks)
        self.says('takes over 256 MB of memory|cannot read it', 'bomb.vtu', b'<VTKFile type="UnstructuredGrid" version="0.1" byte_order="LittleEndian" header_type="UInt32" '
                  b'compressor="vtkZLibDataCompressor"><UnstructuredGrid><Piece NumberOfPoints="4" NumberOfCells="2"><Points><DataArray type="Float64" NumberOfComponents="3" '
                  b'format="binary">' + words + b'</DataArray></Points></Piece></UnstructuredGrid></VTKFile>', limits=apart.Limits(10.0, 256))

    def test_seconds(self):
        with self.assertRaisesRegex(surfaces.Fault, 'reading it takes over 0.5 s.*--read-seconds allows more'):
            apart.run(lambda: time.sleep(30), apart.Limits(0.5), 'reading it')

        def busy():
            while True:
                pass
        with self.assertRaisesRegex(surfaces.Fault, 'takes over 0.5 s'):
            apart.run(busy, apart.Limits(0.5), 'reading it')
        self.says('reading it as wkt takes over 1 s', 'a.wkt', 'TIN(((' + '1111111111111111111111111111 1 1,' * 3, form='wkt', limits=apart.Limits(1.0))

    def test_a_reader_that_crashes(self):
        for number in (signal.SIGSEGV, signal.SIGABRT):
            with self.assertRaisesRegex(surfaces.Fault, 'reading it ended by signal %d, a fault of the reader' % number):
                apart.run(lambda: os.kill(os.getpid(), number), apart.Limits(), 'reading it')
        with self.assertRaisesRegex(surfaces.Fault, 'what is read makes no mesh, ZeroDivisionError'):
            apart.run(lambda: 1 // 0, apart.Limits(), 'reading it')
        with self.assertRaisesRegex(surfaces.Fault, 'failed without words'):
            apart.run(lambda: os._exit(3), apart.Limits(), 'reading it')

    def test_what_comes_back(self):
        """The same surface as is read in this process would be."""
        surface = files.read(os.path.join(FILES, 'columns.msh'))
        again = apart.run(lambda: surface, apart.Limits(), 'handing it on')
        self.assertEqual(repr(again), repr(surface))
        self.assertTrue(numpy.array_equal(again.points, surface.points))
        self.assertTrue(again.points.flags.writeable)

    def test_nothing_is_written_or_started(self):
        for call in (lambda: open(self.path('new'), 'w'), lambda: os.system('true')):
            with self.assertRaisesRegex(surfaces.Fault, 'it names another file|it would start a program'):
                apart.run(lambda: (files.confine('/nowhere'), call()), apart.Limits(), 'reading it')
        self.assertEqual(os.listdir(self.folder), [])


class Faults(Apart):
    def test_many_comments(self):
        for count in (600, 20000):
            head, _, rest = (INP % 'a').partition('2, 1')
            self.assertEqual(len(files.read(self.put('a.inp', head + '** words\n' * count + '2, 1' + rest)).triangles.cells), 2)

    def test_a_node_at_two_places(self):
        for name, form in (('a.msh', MSH), ('b.msh', MSH41), ('a.bdf', BDF), ('a.inp', (INP % 'a').replace('4, 0, 1, 0', '%d, 0, 1, 0').replace('3, 4', '3, %d'))):
            with self.subTest(name):
                self.assertEqual(len(files.read(self.put(name, form % (4, 4))).triangles.cells), 2)
                self.says(r'node 3 stands at two places, \(1, 1, 0\) and \(0, 1, 0\)', name, form % (3, 3))

    def test_steps_that_are_there(self):
        """Of a set in steps those nodes and cells that the file has, also where it comes before them."""
        surface = files.read(self.put('a.inp', (INP % 'a') + '*NSET, NSET=n, GENERATE\n1, 3, 2\n*ELSET, ELSET=e, GENERATE\n2, 2, 1\n'))
        self.assertEqual((surface.hard['n'].tolist(), surface.triangles.sets['e'].tolist()), ([0, 2], [False, True]))

    def test_control_characters(self):
        name = 'a\\x1b[31mb\\x07'
        path = self.put('s\x1b[2J.inp', INP % 'a\x1b[31mb\x07')
        ran = self.run_command(path, '-o', self.path('out.vtu'), '--report', self.path('r.txt'), '--report', self.path('r.html'))
        self.assertEqual(ran.returncode, 0, ran.stderr)
        self.assertIn(name, ran.stderr)
        texts = [ran.stdout, ran.stderr]
        for report in ('r.txt', 'r.html'):
            with open(self.path(report)) as file:
                texts.append(file.read())
        for words in texts:
            self.assertNotRegex(words, '[\x00-\x08\x0b-\x1f\x7f-\x9f]')
        self.assertNotIn('\x1b', self.run_command(self.path('no\x1b[2J.msh'), '-o', self.out).stderr)


if __name__ == '__main__':
    unittest.main()
