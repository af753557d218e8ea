"""Tests of runs that are ended: Ctrl-C, SIGTERM, a kill, and the seconds that a run may take."""
import os, random, signal, subprocess, sys, time, unittest
from case import COMMAND, Case, meshio, set_up
from common import FILES, grid

if meshio:
    import numpy
    from sedgepick import parts

L_SLAB = os.path.join(FILES, 'l-slab-41.msh')
KILLS = 50


def setUpModule():
    set_up()


def slab(side):
    """A mesh of so many squares a side, its inner nodes moved."""
    points, triangles = map(numpy.array, grid(side, side))
    inner = (points[:, :2].min(axis=1) > 0) & (points[:, :2].max(axis=1) < side)
    points[inner, :2] += 0.3 * numpy.sin(numpy.arange(2 * inner.sum()).reshape(-1, 2) ** 2)
    return points, triangles


class Ending(Case):
    def setUp(self):
        super().setUp()
        self.temporary = self.path('tmp')
        os.mkdir(self.temporary)
        self.long = self.stored(slab(110)[0], [('triangle', slab(110)[1])])  # seconds of work

    def begun(self, *words, path=None):
        environment = dict(os.environ, TMPDIR=self.temporary, OPENBLAS_NUM_THREADS='1')
        if path:
            environment['PATH'] = path + os.pathsep + environment['PATH']
        return subprocess.Popen([sys.executable, COMMAND, *words], stdout=subprocess.PIPE, stderr=subprocess.PIPE, text=True, env=environment)

    def at_work(self, ran):
        """Waits until its threads, or those of its child, run the parts."""
        while True:
            self.assertIsNone(ran.poll(), 'it is over before its parts are run')
            try:
                with open('/proc/%d/task/%d/children' % (ran.pid, ran.pid)) as file:
                    found = [str(ran.pid), *file.read().split()]
                if any(len(os.listdir('/proc/%s/task' % pid)) > 1 for pid in found):
                    return time.sleep(0.3)
            except OSError:  # a child that is over
                pass
            time.sleep(0.02)

    def ends(self, ran, status, pattern, most=5.0):
        """It ends so within a few seconds, and leaves nothing."""
        begin = time.monotonic()
        out, error = ran.communicate(timeout=30)
        self.assertLess(time.monotonic() - begin, most)
        self.assertEqual((ran.returncode, out), (status, ''), error)
        self.assertRegex(error, pattern)
        self.assertNotIn('Traceback', error)
        self.assertEqual(sorted(os.listdir(self.folder)), ['in.vtk', 'tmp'])
        self.assertEqual(os.listdir(self.temporary), [])

    def test_signals(self):
        for number in (signal.SIGINT, signal.SIGTERM, signal.SIGHUP):
            for more in ([], ['--seconds', '100']):
                ran = self.begun(self.long, '-o', self.out, *more)
                self.at_work(ran)
                ran.send_signal(number)
                self.ends(ran, 128 + number, 'stopped; nothing is written')

    def metis(self, words):
        """A folder with a METIS that does this."""
        path = os.path.join(os.path.dirname(self.folder), os.path.basename(self.folder) + '-bin')
        os.makedirs(path, exist_ok=True)
        self.addCleanup(lambda: subprocess.run(['rm', '-r', path]))
        with open(os.path.join(path, 'gpmetis'), 'w') as file:
            file.write('#!/bin/sh\n' + words)
        os.chmod(os.path.join(path, 'gpmetis'), 0o755)
        return path

    def test_metis_goes_along(self):
        path = self.metis('echo $$ > "$(dirname "$0")/pid"\nexec sleep 60\n')
        ran, told = self.begun(self.long, '-o', self.out, path=path), os.path.join(path, 'pid')
        while not os.path.exists(told) or not os.path.getsize(told):
            self.assertIsNone(ran.poll())
            time.sleep(0.05)
        with open(told) as file:
            pid = int(file.read())
        ran.send_signal(signal.SIGTERM)
        self.ends(ran, 143, 'stopped; nothing is written', most=25.0)  # METIS sleeps for a minute
        with self.assertRaises(ProcessLookupError):
            os.kill(pid, 0)

    def test_metis_has_a_limit(self):
        path, before, seconds = self.metis('exec sleep 60\n'), os.environ['PATH'], parts.METIS_SECONDS
        os.environ['PATH'], parts.METIS_SECONDS = path + os.pathsep + before, 0.3
        try:
            points, triangles = slab(50)
            part, cutter, notes = parts.cut(points, triangles)
        finally:
            os.environ['PATH'], parts.METIS_SECONDS = before, seconds
        self.assertEqual(cutter, 'bisection')
        self.assertRegex(notes[0], 'since METIS takes over 0.3 s')

    def test_ignored_children(self):
        """Started by a program that ignores SIGCHLD."""
        for more in ([], ['--seconds', '60']):
            ran = subprocess.run([sys.executable, COMMAND, L_SLAB, '-o', self.out, *more], capture_output=True, text=True,
                                 preexec_fn=lambda: signal.signal(signal.SIGCHLD, signal.SIG_IGN))
            self.assertEqual(ran.returncode, 0, ran.stderr)

    def test_seconds(self):
        begin = time.monotonic()
        self.ends(self.begun(self.long, '-o', self.out, '--seconds', '1.5'), 1, 'it takes over 1.5 s and was ended; nothing is written', 12.0)
        self.assertGreater(time.monotonic() - begin, 1.4)
        self.good(L_SLAB, '-o', self.out, '--seconds', '60')
        self.assertEqual(self.run_command(self.path('none.msh'), '-o', self.out, '--seconds', '60').returncode, 1)
        self.assertEqual(self.run_command(L_SLAB, '-o', self.out, '--seconds', 'long').returncode, 2)


class Killed(Case):
    def test_kills(self):
        """Every output is whole or absent after a kill, whenever it comes; the run after it leaves no temporary folder."""
        words = [L_SLAB, '-o', self.out, '--report', self.path('r.txt'), '--sheet', self.path('s.csv'), '--steps', self.path('steps.html'), '-q']
        begin = time.monotonic()
        self.good(*words)
        usual = time.monotonic() - begin
        whole = {name: self.content(name) for name in os.listdir(self.folder)}
        chance, cut = random.Random(1), 0
        for _ in range(KILLS):
            for name in whole:
                if os.path.exists(self.path(name)):
                    os.remove(self.path(name))
            ran = subprocess.Popen([sys.executable, COMMAND, *words], stdout=subprocess.DEVNULL, stderr=subprocess.DEVNULL)
            time.sleep(chance.uniform(0.3, 1.1) * usual)
            ran.kill()
            ran.wait()
            there = [name for name in os.listdir(self.folder) if not name.startswith('.sedgepick-')]
            cut += len(there) < len(whole)
            for name in there:
                self.assertEqual(self.content(name), whole[name], name)
        self.assertGreater(cut, 0)
        self.good(*words)
        self.assertEqual(sorted(os.listdir(self.folder)), sorted(whole))

    def content(self, name):
        """Without the seconds that a run took."""
        with open(self.path(name)) as file:
            lines = file.read().splitlines()
        return [line for line in lines if 'seconds' not in line]


if __name__ == '__main__':
    unittest.main()
