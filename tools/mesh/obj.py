"""Wavefront OBJ: `v` and `f` with three vertices."""
from mesh.meshes import Mesh

PASSED_OVER = {'vt', 'vn', 'vp', 'l', 'p', 'o', 'g', 's', 'mg', 'mtllib', 'usemtl', 'usemap', 'maplib', 'lod', 'bevel', 'c_interp', 'd_interp'}


def read(reader):
    mesh = Mesh(reader.source)
    faces = []  # their vertices may come later in the file
    while (raw := reader.raw()) is not None:
        words = raw.split(b'#')[0].split()
        key = reader.ascii(words[0]) if words else None
        if key is None or key in PASSED_OVER:
            continue
        values = [reader.ascii(word) for word in words[1:]]
        if key == 'v':
            if len(values) < 3:
                reader.fail('a vertex has three coordinates')
            mesh.add_point(reader.point(values[:3]), len(mesh.points) + 1, reader.number)
        elif key == 'f':
            if len(values) != 3:
                reader.fail('a face of %d vertices; only triangles are taken' % len(values))
            faces.append((reader.number, [vertex(reader, mesh, value) for value in values]))
        else:
            reader.fail("'%s' is not taken; vertices (v) and triangles (f) are" % key)
    for line, nodes in faces:
        for node in nodes:
            if not 0 <= node < len(mesh.points):
                reader.source.fail(line, 'vertex %d is not there: the file has %d' % (node + 1, len(mesh.points)))
        mesh.add_triangle(nodes, line)
    return mesh


def vertex(reader, mesh, value):
    """The place of i, i/t, i//n or i/t/n; a negative i counts back from the last vertex before the face."""
    number = reader.whole(value.split('/')[0], 'a vertex number')
    place = number - 1 if number > 0 else len(mesh.points) + number
    if number == 0 or place < 0:
        reader.fail('vertex %d is not there' % number)
    return place


def write(mesh):
    lines = ['v %r %r %r' % point for point in mesh.points]
    for name, cells in (('quads', mesh.quads), ('leftover_triangles', mesh.triangles)):
        lines += ['g ' + name] * bool(cells) + ['f ' + ' '.join(str(node + 1) for node in cell) for cell in cells]
    return '\n'.join(lines) + '\n'
