"""Tests of the files that are written: regular files alone, whole or not at all, and none left under a temporary name."""
import json, os, resource, stat, subprocess, sys, tempfile, unittest
from case import COMMAND, Case, meshio, set_up
from common import FILES

if meshio:
    from sedgepick import outputs

L_SLAB = os.path.join(FILES, 'l-slab-41.msh')


def setUpModule():
    set_up()


class Places(Case):
    def test_fifo(self):
        os.mkfifo(self.path('out.vtu'))
        for words in (['-o', self.path('out.vtu')], ['-o', self.path('o.msh'), '--report', self.path('out.vtu')]):
            self.refused('it is a device, a FIFO or a socket; name a regular file', L_SLAB, *words)
        self.assertTrue(stat.S_ISFIFO(os.stat(self.path('out.vtu')).st_mode))
        self.assertEqual(os.listdir(self.folder), ['out.vtu'])

    def test_links(self):
        """A link to another output is that output; a link of its own is followed and stays."""
        os.symlink('out.msh', self.path('link.txt'))
        self.refused('link.txt would be written twice', L_SLAB, '-o', self.out, '--report', self.path('link.txt'))
        os.mkdir(self.path('other'))
        os.symlink('other/there.txt', self.path('own.txt'))
        self.good(L_SLAB, '-o', self.out, '--report', self.path('own.txt'))
        self.assertTrue(os.path.islink(self.path('own.txt')))
        self.assertTrue(os.path.isfile(self.path('other/there.txt')))
        os.symlink(L_SLAB, self.path('given.txt'))
        self.assertIn('is the file that is read', self.run_command(L_SLAB, '-o', self.out, '--report', self.path('given.txt')).stderr)

    def test_mode(self):
        for name in ('out.msh', 'r.txt'):
            with open(self.path(name), 'w'):
                pass
            os.chmod(self.path(name), 0o640)
        self.good(L_SLAB, '-o', self.out, '--report', self.path('r.txt'), '--sheet', self.path('s.csv'))
        modes = [stat.S_IMODE(os.stat(self.path(name)).st_mode) for name in ('out.msh', 'r.txt', 's.csv')]
        mask = os.umask(0)
        os.umask(mask)
        self.assertEqual(modes, [0o640, 0o640, 0o666 & ~mask])

    def test_standard_output(self):
        ran = self.good(L_SLAB, '-o', '-', '--to', 'gmsh22')
        self.assertTrue(ran.stdout.startswith('$MeshFormat\n2.2'))
        self.assertIn('146 triangles to', ran.stderr)
        self.good(L_SLAB, '-o', self.out)
        with open(self.out) as file:
            self.assertEqual(file.read(), ran.stdout)
        refused = self.run_command(L_SLAB, '-o', '-')
        self.assertEqual((refused.returncode, refused.stdout), (2, ''))
        self.assertIn('--to says the format', refused.stderr)
        self.assertFalse(os.path.exists('-'))

    def test_rounding_that_is_told(self):
        """Digits behind the fifteenth are not; a format with fewer is."""
        for first, name, told in ((1.2345678901234567e-11, 'out.inp', False), (0.12345678901234567, 'out.bdf', True)):
            path = self.stored([(first, 0, 0), (1 / 3, 0, 0), (1 / 3, 1 / 3, 0), (0, 1 / 3, 0)], [('triangle', [(0, 1, 2), (0, 2, 3)])])
            self.assertEqual('rounds' in self.good(path, '-o', self.path(name)).stderr, told)

    def test_a_folder_that_is_not_there(self):
        self.refused('it names a folder', L_SLAB, '-o', self.path('new') + os.sep)

    def test_nobody_reads_the_summary(self):
        """The status is that of the files."""
        reading, writing = os.pipe()
        os.close(reading)
        ran = subprocess.run([sys.executable, COMMAND, L_SLAB, '-o', self.out], stdout=writing, stderr=subprocess.PIPE, text=True)
        os.close(writing)
        self.assertEqual((ran.returncode, ran.stderr, os.listdir(self.folder)), (0, '', ['out.msh']))

    def test_reports_are_what_their_names_say(self):
        for name in ('r.pdf', 'R.PDF', 'r.csv'):
            ran = self.run_command(L_SLAB, '-o', self.out, '--report', self.path(name))
            self.assertEqual((ran.returncode, os.listdir(self.folder)), (2, []), ran.stderr)
            self.assertIn('a report is a page, .html, an object, .json, or text', ran.stderr)
        self.good(L_SLAB, '-o', self.out, '--report', self.path('r.json'), '--report', self.path('r.txt'))
        with open(self.path('r.json')) as file:
            self.assertEqual(json.load(file)['quads'], 73)
        with open(self.path('r.txt')) as file:
            self.assertTrue(file.read().startswith('sedgepick-mesh: report'))


ALL = ('out.msh', 'r.html', 'r.txt', 's.csv', 'm.csv', 'p.svg', 'steps.html')


class Whole(Case):
    """All files of a run, or none."""

    def words(self):
        return [L_SLAB, '-o', self.out, '--report', self.path('r.html'), '--report', self.path('r.txt'), '--sheet', self.path('s.csv'), '--node-map', self.path('m.csv'),
                '--preview', self.path('p.svg'), '--steps', self.path('steps.html')]

    def test_all(self):
        self.good(*self.words())
        self.assertEqual(sorted(os.listdir(self.folder)), sorted(ALL))

    def test_full_disk(self):
        """Whichever file is the first that the disk has no room for: nothing is written, what was there stays, the status is 1."""
        self.good(*self.words())
        sizes = sorted(os.path.getsize(self.path(name)) for name in ALL)
        for name in ALL:
            with open(self.path(name), 'w') as file:
                file.write('mine')
        for most in [100] + [size - 1 for size in sizes[-3:]]:
            ran = subprocess.run([sys.executable, COMMAND, *self.words()], capture_output=True, text=True,
                                 preexec_fn=lambda: resource.setrlimit(resource.RLIMIT_FSIZE, (most, most)))
            self.assertEqual((ran.returncode, ran.stdout), (1, ''), ran.stderr)
            self.assertRegex(ran.stderr, 'cannot write .*File too large')
            self.assertNotIn('Traceback', ran.stderr)
            self.assertEqual(sorted(os.listdir(self.folder)), sorted(ALL))
            for name in ALL:
                with open(self.path(name)) as file:
                    self.assertEqual(file.read(), 'mine')

    def test_no_room(self):
        """The same on a file system that is full."""
        room = self.path('room')
        os.mkdir(room)
        if subprocess.run(['mount', '-t', 'tmpfs', '-o', 'size=24k', 'tmpfs', room], capture_output=True).returncode:
            self.skipTest('no file system can be mounted here')
        try:
            ran = self.run_command(L_SLAB, '-o', os.path.join(room, 'out.msh'), '--report', os.path.join(room, 'r.html'))
            self.assertEqual(ran.returncode, 1, ran.stderr)
            self.assertRegex(ran.stderr, 'cannot write .*No space left')
            self.assertEqual(os.listdir(room), [])
        finally:
            subprocess.run(['umount', room], check=True)


class Left(Case):
    def test_folders_of_killed_runs(self):
        """A folder that no run has locked is removed by the next that writes there; one that is in use, and everything else, stays."""
        left, other = os.path.join(self.folder, '.sedgepick-abcd1234'), os.path.join(self.folder, '.sedgepick-notes')
        for folder in (left, other, self.path('.sedgepick-abcd12345')):
            os.makedirs(os.path.join(folder, '0'))
        with outputs.Folder(self.folder) as used:
            self.assertFalse(os.path.exists(left))
            os.mkdir(left)
            self.good(L_SLAB, '-o', self.out)
            self.assertEqual(sorted(os.listdir(self.folder)), sorted([os.path.basename(used), '.sedgepick-abcd12345', '.sedgepick-notes', 'out.msh']))


class Race(Case):
    def test_a_folder_that_another_run_removes(self):
        """Two runs at once: what one removes before the other has locked it is made anew."""
        plain, made = tempfile.mkdtemp, []

        def mkdtemp(*words, **more):
            made.append(plain(*words, **more))
            if len(made) == 1:
                os.rmdir(made[0])
            return made[-1]
        tempfile.mkdtemp = mkdtemp
        try:
            with outputs.Folder(self.folder) as folder:
                self.assertEqual((folder, os.path.isdir(folder)), (made[1], True))
        finally:
            tempfile.mkdtemp = plain


if __name__ == '__main__':
    unittest.main()
