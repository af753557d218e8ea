"""Tests of what a service needs: the object of --json, standard input and output, batches, a bound on attempts, a Dask cluster on loopback, and the WSGI example."""
import contextlib, hashlib, json, os, signal, subprocess, sys, tempfile, threading, time, unittest
import urllib.error, urllib.request
from functools import partial
from importlib.util import find_spec
from case import COMMAND, Case, meshio, set_up
from common import FILES, PACKAGES, ROOT, grid

if meshio:
    import numpy
    import sedgepick
    from sedgepick import clusters, library, quality, surfaces

L_SLAB, COLUMNS, SECOND = (os.path.join(FILES, name) for name in ('l-slab-41.msh', 'columns.msh', 'second-order.msh'))
SERVICE = os.path.join(ROOT, 'examples', 'service', 'service.py')
CLAUSES = 8


def setUpModule():
    set_up()


def sha256(path):
    with open(path, 'rb') as file:
        return hashlib.sha256(file.read()).hexdigest()


def content(path):
    with open(path, 'rb') as file:
        return file.read()


def shaken(side):
    points, triangles = map(numpy.array, grid(side, side))
    inner = (points[:, :2].min(axis=1) > 0) & (points[:, :2].max(axis=1) < side)
    points[inner, :2] += 0.25 * numpy.sin(numpy.arange(2 * inner.sum()).reshape(-1, 2) ** 2)
    return points, triangles


class Objects(Case):
    def test_of_a_mesh(self):
        ran = self.good(COLUMNS, '-o', self.out, '--json', '--report', self.path('r.json'))
        found = json.loads(ran.stdout)
        mesh, quads, triangles = self.mesh()
        self.assertEqual((found['schema'], found['status'], found['words']), (1, 0, 'written'))
        self.assertEqual((found['input']['name'], found['input']['sha256'], found['input']['triangles']), ('columns.msh', sha256(COLUMNS), 642))
        self.assertEqual((found['output']['name'], found['output']['sha256']), ('out.msh', sha256(self.out)))
        self.assertEqual((found['quads'], found['triangles'], found['share_of_quads']), (len(quads), len(triangles), len(quads) / (len(quads) + len(triangles))))
        self.assertEqual((found['nodes_added'], found['nodes_dropped']), (0, 0))
        self.assertGreater(found['least_angle_of_quads'], 24.99)
        for name, cells in (('least_angle_of_quads', quads), ('least_angle_of_triangles', triangles)):
            self.assertEqual(found[name], float(quality.least_angles(mesh.points, numpy.array(cells)).min()) if cells else None)
        self.assertEqual((found['verdict']['accepted'], len(found['verdict']['clauses'])), (True, CLAUSES))
        self.assertTrue(all(clause['holds'] and clause['offender'] is None for clause in found['verdict']['clauses']))
        self.assertIn({'what': 'points (column)', 'of': 12, 'lost': 0}, found['kept'])
        self.assertEqual((found['versions']['sedgepick'], found['versions']['commit']), (library.VERSION, library.commit()))
        self.assertEqual((found['warnings'], found['parts']['count']), ([], 1))
        self.assertGreater(found['seconds'], 0)
        with open(self.path('r.json')) as file:
            report = json.load(file)
        self.assertEqual({**report, 'seconds': 0}, {**found, 'seconds': 0})

    def test_of_a_warning(self):
        found = json.loads(self.good(COLUMNS, '-o', self.out, '--json', '--free', status=3).stdout)
        self.assertEqual((found['status'], found['words']), (3, 'written, with a warning'))
        self.assertRegex(found['warnings'][0], r'line edges \(wall\): \d+ of \d+ lost')
        self.assertGreater(sum(own['lost'] for own in found['kept']), 0)

    def test_of_a_refusal(self):
        ran = self.run_command(SECOND, '-o', self.out, '--json')
        found = json.loads(ran.stdout)
        self.assertEqual((ran.returncode, found['status'], found['input']['name']), (1, 1, 'second-order.msh'))
        self.assertIn('second order', found['words'])
        self.assertIn(found['words'], ran.stderr)
        ran = self.run_command(L_SLAB, '-o', self.out, '--json', '--stop', '2')
        self.assertEqual((ran.returncode, json.loads(ran.stdout)['status']), (2, 2))
        ran = self.run_command(L_SLAB, '-o', '-', '--to', 'vtu', '--json')
        self.assertEqual(ran.returncode, 2)
        self.assertIn('both write to standard output', json.loads(ran.stdout)['words'])

    def test_of_an_end(self):
        """A run that takes too long, and one that is stopped."""
        given = self.stored(shaken(110)[0], [('triangle', shaken(110)[1])])
        ran = self.run_command(given, '-o', self.out, '--json', '--seconds', '0.5')
        self.assertEqual((ran.returncode, json.loads(ran.stdout)['status']), (1, 1))
        self.assertIn('it takes over 0.5 s and was ended', json.loads(ran.stdout)['words'])
        begun = subprocess.Popen([sys.executable, COMMAND, given, '-o', self.out, '--json'], stdout=subprocess.PIPE, stderr=subprocess.PIPE, text=True)
        time.sleep(1.0)
        begun.send_signal(signal.SIGINT)
        out, _ = begun.communicate(timeout=30)
        self.assertEqual(begun.returncode, 130)
        if out:  # it may be stopped before its options are read
            self.assertEqual(json.loads(out)['status'], 130)
        self.assertFalse(os.path.exists(self.out))

    def test_of_a_job(self):
        os.mkdir(self.path('out'))
        large = self.stored(grid(50, 42, 0.1)[0], [('triangle', grid(50, 42, 0.1)[1])], name='large.vtk')
        ran = self.run_command('--job', '2000', large, L_SLAB, '-o', self.path('out'), '--json', '--report', self.path('r.json'))
        found = json.loads(ran.stdout)
        self.assertEqual((ran.returncode, found['status'], [own['status'] for own in found['files']]), (1, 1, [1, 0]))
        self.assertEqual((found['job']['allowance'], found['files'][0]['job']['charged']), (2000, 0))
        self.assertEqual(found['job']['charged'], found['files'][1]['job']['charged'])
        self.assertEqual(json.loads(content(self.path('r.json'))), found)


class Streams(Case):
    def piped(self, given, *words):
        return subprocess.run([sys.executable, COMMAND, *words], input=given, capture_output=True)

    def test_in_and_out(self):
        """The bytes are those of the files."""
        ran = self.piped(content(L_SLAB), '-', '--from', 'gmsh', '-o', '-', '--to', 'gmsh22')
        self.assertEqual(ran.returncode, 0, ran.stderr)
        self.good(L_SLAB, '-o', self.out)
        self.assertEqual(ran.stdout, content(self.out))
        self.assertIn(b'standard input: 146 triangles to 73 quads', ran.stderr)

    def test_the_hash_is_that_of_the_bytes(self):
        ran = self.piped(content(COLUMNS), '-', '--from', 'gmsh', '-o', self.out, '--json')
        nodes = {node for cell in self.mesh(COLUMNS)[2] for node in cell}
        self.assertEqual(json.loads(ran.stdout)['input'], {'name': 'standard input', 'sha256': sha256(COLUMNS), 'triangles': 642, 'nodes': len(nodes)})

    def test_refused(self):
        for given, status, words, more in ((b'', 1, b'it is empty', []), (b'rubbish', 1, b'meshio cannot read it as gmsh', []), (content(L_SLAB)[:3000], 1, b'cannot read|breaks off', []),
                                           (b'x' * (17 << 20), 1, b'over 16 MB', ['--read-memory', '16'])):
            ran = self.piped(given, '-', '--from', 'gmsh', '-o', self.out, *more)
            self.assertEqual(ran.returncode, status, ran.stderr)
            self.assertRegex(ran.stderr, words)
            self.assertNotRegex(ran.stderr, b'/proc|/tmp')
        self.assertEqual(os.listdir(self.folder), [])
        ran = self.piped(content(L_SLAB), '-', '-o', self.out)
        self.assertEqual(ran.returncode, 2)
        self.assertIn(b'--from says the format', ran.stderr)
        ran = self.piped(content(L_SLAB), '-', L_SLAB, '--from', 'gmsh', '-o', self.folder)
        self.assertEqual(ran.returncode, 2)

    def test_nothing_comes(self):
        reading, writing = os.pipe()
        try:
            ran = subprocess.run([sys.executable, COMMAND, '-', '--from', 'gmsh', '-o', self.out, '--read-seconds', '0.5'], stdin=reading, capture_output=True, timeout=30)
        finally:
            os.close(reading)
            os.close(writing)
        self.assertEqual(ran.returncode, 1)
        self.assertIn(b'standard input takes over 0.5 s', ran.stderr)


class Batch(Case):
    def setUp(self):
        super().setUp()
        self.out = self.path('out')
        os.mkdir(self.out)

    def test_past_a_bad_file(self):
        ran = self.run_command(L_SLAB, SECOND, self.path('nothing.msh'), COLUMNS, '-o', self.out)
        self.assertEqual(ran.returncode, 1)
        self.assertEqual(sorted(os.listdir(self.out)), ['columns.msh', 'l-slab-41.msh'])
        table = ran.stdout[ran.stdout.index('file  '):].splitlines()
        self.assertEqual(len(table), 6)
        self.assertRegex(table[1], r'^l-slab-41.msh +written +146 +73 +0 +100\.0 +\d+\.\d +\d+\.\d$')
        self.assertRegex(table[2], r'^second-order.msh +refused +146 cells of second order')
        self.assertRegex(table[3], r'^nothing.msh +refused +there is no such file$')
        _, quads, triangles = self.mesh(os.path.join(self.out, 'columns.msh'))
        self.assertRegex(table[4], r'^columns.msh +written +642 +%d +%d ' % (len(quads), len(triangles)))
        self.assertEqual(table[5], '4 files: 2 written, 2 refused')
        self.good(COLUMNS, '-o', self.path('alone.msh'))
        self.assertEqual(content(self.path('alone.msh')), content(os.path.join(self.out, 'columns.msh')))

    def test_status(self):
        self.good(L_SLAB, COLUMNS, '-o', self.out)
        self.good(L_SLAB, COLUMNS, '-o', self.out, '--free', status=3)

    def test_objects_and_patterns(self):
        ran = self.good(L_SLAB, SECOND, COLUMNS, '-o', os.path.join(self.out, '*-quads.vtu'), '--json', '--report', self.path('*.html'), '--node-map', self.path('*.csv'), status=1)
        found = json.loads(ran.stdout)
        self.assertEqual((found['status'], found['words'], [own['status'] for own in found['files']]), (1, '2 of 3 written', [0, 1, 0]))
        self.assertEqual(found['files'][2]['output']['sha256'], sha256(os.path.join(self.out, 'columns-quads.vtu')))
        self.assertEqual(sorted(os.listdir(self.folder)), ['columns.csv', 'columns.html', 'l-slab-41.csv', 'l-slab-41.html', 'out'])

    def test_options(self):
        for words, said in ((['-o', self.out, '--report', self.path('r.html')], r'--report .*r.html: with several files it is a path in which \*'), (['-o', '-', '--to', 'vtu'], 'several files take no -o -')):
            ran = self.run_command(L_SLAB, COLUMNS, *words)
            self.assertEqual((ran.returncode, os.listdir(self.out)), (2, []))
            self.assertRegex(ran.stderr, said)
        for words, said in (([L_SLAB, L_SLAB, '-o', self.out], 'would be written twice'), ([L_SLAB, COLUMNS, '-o', self.path('none')], 'with several files it is a folder that is there'),
                            ([L_SLAB, COLUMNS, '-o', self.out, '--sheet', os.path.join(self.out, '*.msh')], 'would be written twice')):
            ran = self.run_command(*words)
            self.assertEqual((ran.returncode, os.listdir(self.out)), (1, []), ran.stderr)
            self.assertIn(said, ran.stderr)

    def test_seconds_are_those_of_each_file(self):
        """One that takes too long is ended, and the next is run."""
        long = self.stored(shaken(130)[0], [('triangle', shaken(130)[1])], name='long.vtk')
        ran = self.run_command(long, L_SLAB, '-o', os.path.join(self.out, '*.msh'), '--seconds', '1.5', '--jobs', '1', '--json', '--raw')
        found = json.loads(ran.stdout)
        self.assertEqual((ran.returncode, [own['status'] for own in found['files']]), (1, [1, 0]), ran.stderr)
        self.assertIn('it takes over 1.5 s and was ended', found['files'][0]['words'])
        self.assertEqual(os.listdir(self.out), ['l-slab-41.msh'])


class Bounded(Case):
    def test_attempts(self):
        self.good(COLUMNS, '-o', self.out)
        whole = content(self.out)
        found = json.loads(self.good(COLUMNS, '-o', self.out, '--most-attempts', '1000000', '--json').stdout)
        self.assertEqual(content(self.out), whole)
        self.assertGreater(found['attempts'], 100)
        found = json.loads(self.good(COLUMNS, '-o', self.out, '--most-attempts', '30', '--json').stdout)
        self.assertEqual((found['attempts'], found['verdict']['accepted']), (31, True))
        self.assertIn('the limit of 30 attempts ended the run early; a larger --most-attempts may help', found['notes'])
        ran = self.good(COLUMNS, '-o', self.out, '--most-attempts', '30', '--raw', status=3)
        self.assertIn('warning: the limit of 30 attempts', ran.stderr)
        self.assertEqual(self.run_command(COLUMNS, '-o', self.out, '--most-attempts', '0').returncode, 2)

    def test_a_file_around_one_node(self):
        """The worst shape that is known, a fan: its run is bounded by its attempts."""
        count = 2000
        turn = numpy.linspace(0, 2 * numpy.pi, count, endpoint=False)
        points = numpy.concatenate([[(0, 0, 0)], numpy.column_stack([numpy.cos(turn), numpy.sin(turn), numpy.zeros(count)])])
        path = self.stored(points, [('triangle', [(0, 1 + i, 1 + (i + 1) % count) for i in range(count)])])
        ran = self.run_command(path, '-o', self.out, '--most-attempts', '500', '--thin', '0', '--json', '--raw')
        found = json.loads(ran.stdout)
        self.assertIn(found['status'], (0, 3), found['words'])
        self.assertLessEqual(found['attempts'], 501)


@unittest.skipUnless(find_spec('distributed'), 'distributed is not installed')
class Clusters(Case):
    """A scheduler and two workers on loopback."""

    @classmethod
    def setUpClass(cls):
        cls.own = tempfile.TemporaryDirectory()
        cls.addClassCleanup(cls.own.cleanup)
        cls.file = os.path.join(cls.own.name, 'scheduler.json')
        cls.begin('dask_scheduler', '--port', '0', '--scheduler-file', cls.file)
        cls.wait(lambda: os.path.exists(cls.file) and os.path.getsize(cls.file))
        with open(cls.file) as file:
            cls.address = json.load(file)['address']
        for _ in range(2):
            cls.begin('dask_worker', cls.address, '--nthreads', '1', '--no-nanny')
        cls.wait(lambda: cls.workers() == 2)

    @classmethod
    def begin(cls, program, *words):
        ran = subprocess.Popen([sys.executable, '-m', 'distributed.cli.' + program, '--host', '127.0.0.1', '--no-dashboard', *words], cwd=cls.own.name,
                               env=dict(os.environ, PYTHONPATH=PACKAGES, PYTHONDONTWRITEBYTECODE='1'), stdout=subprocess.DEVNULL, stderr=subprocess.DEVNULL)
        cls.addClassCleanup(ran.wait)
        cls.addClassCleanup(ran.terminate)

    @classmethod
    def workers(cls):
        with contextlib.suppress(surfaces.Fault), clusters.Cluster(cls.address) as cluster:
            return len(cluster.client.run(os.getpid))
        return 0

    @staticmethod
    def wait(ready):
        end = time.monotonic() + 120
        while not ready():
            if time.monotonic() > end:
                raise unittest.SkipTest('the cluster does not start here')
            time.sleep(0.2)

    def test_parts(self):
        """A mesh in parts, and run_front's own answer of it: the same bytes as on one machine."""
        given = self.stored(shaken(70)[0], [('triangle', shaken(70)[1])])
        for more in ([], ['--raw', '--most-attempts', '3000', '--stop', '1']):
            status = self.run_command(given, '-o', self.out, *more).returncode
            here = content(self.out)
            os.remove(self.out)
            ran = self.run_command(given, '-o', self.out, '--json', '--cluster', self.address, *more)
            self.assertEqual(ran.returncode, status, ran.stderr)
            self.assertGreater(json.loads(ran.stdout)['parts']['count'], 2)
            self.assertEqual(content(self.out), here)

    def test_files(self):
        for name in ('here', 'there'):
            os.mkdir(self.path(name))
        self.good(L_SLAB, SECOND, COLUMNS, '-o', self.path('here'), status=1)
        ran = self.good(L_SLAB, SECOND, COLUMNS, '-o', self.path('there'), '--cluster', self.address, status=1)
        self.assertIn('3 files: 2 written, 1 refused', ran.stdout)
        self.assertEqual(sorted(os.listdir(self.path('there'))), ['columns.msh', 'l-slab-41.msh'])
        for name in os.listdir(self.path('there')):
            self.assertEqual(content(self.path('here/' + name)), content(self.path('there/' + name)))

    def test_the_workers_do_the_work(self):
        """A task runs in another process, and what it raises comes back."""
        with clusters.Cluster(self.address) as cluster:
            found = cluster.each(partial(eval, '__import__("os").getpid()'), [{}] * 4)
            self.assertNotIn(os.getpid(), found)
            with self.assertRaises(sedgepick.Refused) as caught:
                cluster.each(partial(sedgepick.small_mesh, 9), [0])
            self.assertEqual(caught.exception.number, 1)
            points, triangles = shaken(60)
            mesh = sedgepick.mesh(points, triangles, cluster=cluster)
        numpy.testing.assert_array_equal(mesh.quads, sedgepick.mesh(points, triangles).quads)

    def test_another_library(self):
        """A worker with another build is refused: its bytes could differ."""
        with clusters.Cluster(self.address) as cluster:
            own, library.build = library.build, lambda: 'archive of another day, cc'
            try:
                with self.assertRaisesRegex(surfaces.Fault, 'the worker tcp.* has sedgepick .*archive [0-9a-f]{64}.*archive of another day.*: install one build on all'):
                    cluster.check_workers()
            finally:
                library.build = own

    def test_no_scheduler(self):
        before, clusters.CONNECT_SECONDS = clusters.CONNECT_SECONDS, 1.0
        try:
            with self.assertRaisesRegex(surfaces.Fault, 'no Dask scheduler answers at tcp://127.0.0.1:9'), clusters.Cluster('tcp://127.0.0.1:9'):
                pass
        finally:
            clusters.CONNECT_SECONDS = before


class Wsgi(Case):
    """examples/service, started as it is."""

    def setUp(self):
        super().setUp()
        self.server = subprocess.Popen([sys.executable, SERVICE, '--port', '0', '--megabytes', '1', '--seconds', '30'], stdout=subprocess.PIPE, stderr=subprocess.DEVNULL, text=True,
                                       env=dict(os.environ, PATH=os.pathsep.join(['/usr/bin', '/bin']), TMPDIR=self.folder))
        self.addCleanup(self.server.stdout.close)
        self.addCleanup(self.server.wait)
        self.addCleanup(self.server.terminate)
        self.address = self.server.stdout.readline().strip()
        self.assertTrue(self.address.startswith('http://127.0.0.1:'))

    def ask(self, query, given, path='', **headers):
        request = urllib.request.Request(self.address + path + query, data=given, headers=headers)
        try:
            with urllib.request.urlopen(request, timeout=60) as answer:
                return answer.status, answer.read()
        except urllib.error.HTTPError as error:
            with error:
                return error.code, error.read()

    def test_mesh_and_object(self):
        status, mesh = self.ask('?from=gmsh&to=vtu', content(L_SLAB))
        self.assertEqual(status, 200)
        self.good(L_SLAB, '-o', self.path('here.vtu'))
        self.assertEqual(mesh, content(self.path('here.vtu')))
        status, found = self.ask('?from=gmsh&to=vtu&answer=json', content(COLUMNS))
        found = json.loads(found)
        self.assertEqual((status, found['status'], found['input']['sha256']), (200, 0, sha256(COLUMNS)))
        self.assertGreater(found['share_of_quads'], 0.95)
        self.assertEqual(os.listdir(self.folder), ['here.vtu'])  # nothing is left

    def test_refused(self):
        status, found = self.ask('?from=gmsh', content(SECOND))
        self.assertEqual(status, 422)
        self.assertIn('second order', json.loads(found)['words'])
        self.assertEqual(self.ask('?from=gmsh', b'x' * ((1 << 20) + 1))[0], 413)
        self.assertEqual(self.ask('?from=gmsh', None)[0], 405)
        self.assertEqual(self.ask('', content(L_SLAB), path='/../etc/passwd')[0], 404)

    def test_no_path_of_the_client(self):
        for query in ('?from=../../etc/passwd', '?to=/tmp/x.vtu', '?from=gmsh&to=--help', '?to=vtu%00'):
            self.assertEqual(self.ask(query, content(L_SLAB))[0], 415, query)
        self.assertEqual(os.listdir(self.folder), [])

    def test_several_at_once(self):
        """Two are worked on; of more some are turned away, and none is left without an answer."""
        found = []
        many = [threading.Thread(target=lambda: found.append(self.ask('?from=gmsh&answer=json', content(L_SLAB))[0])) for _ in range(6)]
        for thread in many:
            thread.start()
        for thread in many:
            thread.join()
        self.assertEqual((len(found), set(found) - {200, 503}), (6, set()))
        self.assertGreaterEqual(found.count(200), 2)
        self.assertIn(503, found)


if __name__ == '__main__':
    unittest.main()
