"""Tests of sedgepick.Job: shares, what is left, refused meshes."""
import unittest
from common import make_library
import sedgepick
from sedgepick import front
from test_package import HALVES, SQUARE, content, shaken


def setUpModule():
    make_library()


class Jobs(unittest.TestCase):
    @classmethod
    def setUpClass(cls):
        cls.mesh = shaken(3, 8, 8)
        cls.alone = sedgepick.run_front(*cls.mesh, 0.5)
        cls.need = cls.alone.counts.attempts

    def account(self, slab):
        return slab.entitled, slab.charged, slab.left

    def test_a_limit_stops_a_mesh_and_what_is_left_goes_on(self):
        need = self.need
        job = sedgepick.Job(3, 3 * (need - 1) + 2)
        first = job.run(*self.mesh, 0.5)
        self.assertEqual(self.account(first), (need - 1, need - 1, 0))
        self.assertEqual((first.mesh.counts.limit, first.mesh.counts.attempts, first.limit, first.refused), (1, need, need - 1, None))
        self.assertGreater(len(first.mesh.quads), 0)
        self.assertEqual(list(first.mesh.quads), list(self.alone.quads)[:len(first.mesh.quads)])
        second = job.run(SQUARE, [(0, 1, 1)], 0.5)
        self.assertEqual((second.mesh, second.refused.number, *self.account(second)), (None, 6, need - 1, 0, need - 1))
        third = job.run(*self.mesh, 0.5)
        self.assertEqual(self.account(third), (2 * (need - 1), need, need - 2))
        self.assertEqual(content(third.mesh), content(self.alone))
        self.assertEqual((job.charged, job.done), (2 * need - 1, 3))
        with self.assertRaises(sedgepick.Refused) as caught:
            job.run(*self.mesh, 0.5)
        self.assertEqual((caught.exception.number, job.done, job.left, job.charged), (16, 3, need - 2, 2 * need - 1))

    def test_a_mesh_that_runs_out_of_memory_is_run_once(self):
        job = sedgepick.Job(2, 2 * self.need)
        short = job.run(*self.mesh, 0.5, slots=len(self.mesh[1]) + 1)
        self.assertEqual((short.mesh, short.refused.number), (None, 9))
        self.assertTrue(1 < short.charged < self.need)
        self.assertEqual(job.left, self.need - short.charged)
        before = sedgepick.Job(1, short.charged - 1).run(*self.mesh, 0.5, slots=len(self.mesh[1]) + 1)
        self.assertEqual((before.refused, before.charged, len(before.mesh.quads)), (None, short.charged - 1, 1))
        self.assertEqual(content(job.run(*self.mesh, 0.5).mesh), content(self.alone))

    def test_the_usual_limit(self):
        slab = sedgepick.Job(1, 1000000).run(SQUARE, HALVES, 1.0)
        self.assertEqual((slab.entitled, slab.limit, slab.charged), (1000000, 10400, 1))

    def test_no_share(self):
        slab = sedgepick.Job(16, 15).run(SQUARE, HALVES, 1.0)
        self.assertEqual((slab.mesh.counts.attempts, slab.mesh.counts.limit, *self.account(slab)), (1, 1, 0, 0, 0))

    def test_over_4096_triangles_is_refused_and_the_job_goes_on(self):
        job = sedgepick.Job(2, 9)
        slab = job.run(SQUARE, HALVES * 2049, 1.0)
        self.assertEqual((slab.refused.number, slab.charged, slab.left), (1, 0, 4))
        self.assertEqual(len(job.run(SQUARE, HALVES, 1.0).mesh.quads), 1)

    def test_a_list_of_another_shape_leaves_the_job_as_it_was(self):
        job = sedgepick.Job(1, 9)
        with self.assertRaises(ValueError):
            job.run(SQUARE, [(0, 1)], 1.0)
        self.assertEqual((job.done, job.left), (0, 0))
        self.assertEqual(len(job.run(SQUARE, HALVES, 1.0).mesh.quads), 1)

    def test_bad_numbers(self):
        for meshes, allowance in ((0, 9), (17, 9), (1, 0), (1, 1000001), (1.5, 9), (1, -1), (2 ** 70, 9)):
            with self.assertRaises(sedgepick.Refused) as caught:
                sedgepick.Job(meshes, allowance)
            self.assertEqual(caught.exception.number, 16)
        sedgepick.Job(sedgepick.MOST_MESHES, sedgepick.MOST_ALLOWANCE)

    def test_more_left_than_could_be(self):
        job = sedgepick.Job(2, 9)
        job.done, job.left = 1, 5
        with self.assertRaises(sedgepick.Refused) as caught:
            job.run(SQUARE, HALVES, 1.0)
        self.assertEqual((caught.exception.number, job.done, job.left), (16, 1, 5))
        self.assertIn(sedgepick.REFUSALS[16], str(caught.exception))
        job.left = 4
        self.assertEqual(job.run(SQUARE, HALVES, 1.0).left, 7)

    def test_without_numpy(self):
        usual = sedgepick.Job(1, 5).run(*self.mesh, 0.5)
        kept, front.numpy = front.numpy, None
        try:
            plain = sedgepick.Job(1, 5).run(*self.mesh, 0.5)
        finally:
            front.numpy = kept
        self.assertEqual((content(plain.mesh), plain.charged), (content(usual.mesh), usual.charged))


if __name__ == '__main__':
    unittest.main()
