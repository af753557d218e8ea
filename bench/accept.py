"""Times of what a user would take in place of the acceptance: numpy in floats, meshio reading the judged mesh, Gmsh checking it.

  accept.py FOLDER     the files that `bench -- accept` writes; prints a column each in milliseconds, a dash for what is not installed"""
import os, shutil, subprocess, sys, time

COSINE = 0.90630778703665


def corners(xy, cells):
    """At each corner the vector to the next node and to the one before."""
    p = xy[cells]
    return numpy.roll(p, -1, axis=1) - p, numpy.roll(p, 1, axis=1) - p


def keys(cells, n):
    """Each directed side of the cells as one number."""
    return (cells.astype(numpy.int64) * n + numpy.roll(cells, -1, axis=1)).ravel()


def upright(xy, cells):
    u, v = corners(xy, cells)
    area = u[:, 0, 0] * v[:, 0, 1] - u[:, 0, 1] * v[:, 0, 0]
    return numpy.where((area < 0)[:, None], cells[:, ::-1], cells), area


def judged(given, points, triangles, quads, left):
    """The clauses but for joints and groups, in floats: whether all hold."""
    xy, n = points[:, :2], len(points)
    u, v = corners(xy, quads)
    convex = (u[..., 0] * v[..., 1] - u[..., 1] * v[..., 0] > 0).all()
    lengths = numpy.hypot(u[..., 0], u[..., 1]) * numpy.hypot(v[..., 0], v[..., 1])
    wide = ((u * v).sum(axis=2) <= (COSINE + 1e-9) * lengths).all()
    triangles, area = upright(xy, triangles)
    left, rest = upright(xy, left)
    sides = numpy.concatenate([keys(triangles, n), keys(quads[:, ::-1], n), keys(left[:, ::-1], n)])
    u, v = sides // n, sides % n
    edges, place = numpy.unique(numpy.where(u < v, sides, v * n + u), return_inverse=True)
    balance = numpy.bincount(place.ravel(), weights=numpy.where(u < v, 1, -1), minlength=len(edges))
    same = (given.view(numpy.uint64) == points[:len(given)].view(numpy.uint64)).all()
    return same and convex and wide and (area != 0).all() and (rest != 0).all() and (balance == 0).all()


def timed(call, runs=3):
    """The least milliseconds of some calls."""
    times = []
    for _ in range(runs):
        begin = time.perf_counter()
        call()
        times.append(1e3 * (time.perf_counter() - begin))
    return '%.1f' % min(times)


def by_numpy(folder):
    read = lambda name, kind, width: numpy.fromfile(os.path.join(folder, name), dtype=kind).reshape(-1, width)
    points = read('points', '<f8', 3)
    given = points[:int(read('given', '<u8', 1)[0, 0])].copy()
    lists = [read('triangles', '<u4', 3), read('quads', '<u4', 4), read('left', '<u4', 3)]
    assert judged(given, points, *lists)
    return timed(lambda: judged(given, points, *lists))


def by_gmsh(path):
    if shutil.which('gmsh') is None:
        return '-'
    return timed(lambda: subprocess.run(['gmsh', '-check', path, '-v', '0'], check=True, stdout=subprocess.DEVNULL), 1)


def by_meshio(path):
    try:
        import meshio
    except ImportError:
        return '-'
    return timed(lambda: meshio.read(path, file_format='gmsh'), 1)


if __name__ == '__main__':
    folder = sys.argv[1]
    path = os.path.join(folder, 'judged.msh')
    try:
        import numpy
        first = by_numpy(folder)
    except ImportError:
        first = '-'
    print(first, '|', by_meshio(path), '|', by_gmsh(path))
