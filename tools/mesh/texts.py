"""The program's text: an input, a call of the library (an input after its capacities, its quality set, its joints, its profile and its trace's words if it has such), an
answer or a refusal."""
import re, struct
from mesh.lines import Fault
from mesh.meshes import Mesh

INPUT = 'triangles points size stop'
CALL = 'capacity slots'
QUALITY = 'least_jacobian largest_cosine side_low side_high pairs'
JOINTS = 'joints'
JOINT = 'u v'
PROFILE = 'grid'
TRACE = 'trace'
COUNTS = 'front_empty attempts placement invalid_quad recovery region odd_region mismatch_insertions limit'
LENGTHS = 'quads triangles points components'
TRIANGLE = 'n0 n1 n2'
QUAD = 'n0 n1 n2 n3 u v round replaced'
POINT = 'x y z'
SIZES = 'size'
TRIALS = 'trials'
WORDS = 'words'
REFUSED = 'refused'

NUMBER = re.compile(rb'0|[1-9][0-9]{0,17}')
BITS = re.compile(rb'[0-9a-f]{16}')

# what the program and the library take
TEXT_TRIANGLES = TEXT_POINTS = 64
CALL_TRIANGLES = CALL_POINTS = 4096
CAPACITY = 8192
SLOTS = 16384
FAR = 8.0
LEAST_SIZE = 1 / 64
LARGEST_SIZE = 8.0

REFUSALS = {
    1: 'over 4,096 triangles or given points, or over a capacity limit',
    2: 'the size is neither zero nor from 1/64 to 8',
    3: 'the stop rule is neither 0 nor 1',
    4: 'a lent slice is too short, or a capacity below what is given',
    5: 'a triangle names a node that is not there',
    6: 'a triangle has a node twice',
    7: 'x or y is not finite or is beyond 8 in magnitude',
    8: 'the run inserts a point, and the point capacity is used up',
    9: 'the run needs a slot, and none is free',
    10: 'the text is not in its form',
    11: 'the entry of an insertion, a flip or a quad does not fit the lent trace',
    13: 'a joint is one node twice or names a node that is not there, or there are over 256 joints',
    14: 'a quality number is out of its range or is a NaN, or the low side factor is above the high one',
    15: 'in the grid profile: an x or y is no multiple of 1/1024, or the size is not zero',
}


class Refused(Fault):
    """The text is a refusal."""

    def __init__(self, source, number):
        self.number = number
        super().__init__(source.name, 0, 'refused with %d: %s' % (number, REFUSALS.get(number, 'a number that is not known')))


def bits(value):
    """The 16 hexadecimal digits of a double."""
    return struct.pack('>d', value).hex()


def double(word):
    return struct.unpack('>d', bytes.fromhex(word.decode()))[0]


class Form:
    """Goes through a text line by line: a newline after each, one space between values."""

    def __init__(self, source):
        self.source = source
        self.number = 0
        self.lines = source.data.split(b'\n')
        if self.lines.pop():
            source.fail(len(self.lines) + 1, 'the last line has no newline')

    def fail(self, message):
        self.source.fail(self.number, message)

    def line(self, what):
        self.number += 1
        if self.number > len(self.lines):
            self.fail('the text ends where %s should follow' % what)
        return self.lines[self.number - 1]

    def names(self, names):
        if self.line("'%s'" % names) != names.encode():
            self.fail("should be '%s'" % names)

    def numbers(self, names):
        """A line with a decimal number for each name."""
        words = self.line(names).split(b' ')
        if len(words) != len(names.split()) or not all(NUMBER.fullmatch(word) for word in words):
            self.fail("should be a decimal number for each of '%s', parted by one space" % names)
        return tuple(int(word) for word in words)

    def cell(self, names, points):
        nodes = self.numbers(names)
        self.known(nodes, points)
        return nodes

    def known(self, nodes, points):
        if max(nodes) >= points:
            self.fail('node %d is not there: the text has %d points' % (max(nodes), points))

    def point(self):
        words = self.line(POINT).split(b' ')
        if len(words) != 3 or not all(BITS.fullmatch(word) for word in words):
            self.fail('should be three floats of 16 lowercase hexadecimal digits, parted by one space')
        return tuple(double(word) for word in words)

    def end(self):
        if self.number < len(self.lines):
            self.number += 1
            self.fail('should be the end of the text')


def is_text(source):
    first = source.data.split(b'\n', 1)[0].rstrip(b'\r').decode('latin-1')
    return first in (INPUT, CALL, COUNTS, REFUSED)


def read(source):
    """The mesh of an input, a call or an answer; raises Refused for a refusal."""
    form = Form(source)
    first = form.lines[0].decode('latin-1') if form.lines else ''
    if first == REFUSED:
        form.names(REFUSED)
        raise Refused(source, form.numbers('number')[0])
    if first == COUNTS:
        return answer(form)
    if first == CALL:
        form.names(CALL)
        form.numbers(CALL)
        set_of(form)
        joints_of(form)
        profile_of(form)
        trace_of(form)
        return given(form)
    if first == INPUT:
        return given(form)
    source.fail(1, "should be '%s' (an input), '%s' (a call), '%s' (an answer) or '%s'" % (INPUT, CALL, COUNTS, REFUSED))


def set_of(form):
    """The quality set of a call, its four floats and the pairs; None where it names none."""
    if form.lines[form.number:form.number + 1] != [QUALITY.encode()]:
        return None
    form.names(QUALITY)
    *floats, pairs = words = form.line(QUALITY).split(b' ')
    if len(words) != 5 or not all(BITS.fullmatch(word) for word in floats) or not pairs.isdigit():
        form.fail('should be four floats of 16 lowercase hexadecimal digits and a count, parted by one space')
    return (*map(double, floats), int(pairs))


def joints_of(form):
    """The joints of a call."""
    if form.lines[form.number:form.number + 1] != [JOINTS.encode()]:
        return []
    form.names(JOINTS)
    count, = form.numbers(JOINTS)
    form.names(JOINT)
    return [form.numbers(JOINT) for _ in range(count)]


def profile_of(form):
    """The grid profile of a call: a number, 0 where it is not chosen."""
    if form.lines[form.number:form.number + 1] != [PROFILE.encode()]:
        return 0
    form.names(PROFILE)
    return form.numbers(PROFILE)[0]


def trace_of(form):
    """The words of trace that a call is lent, 0 for none."""
    if form.lines[form.number:form.number + 1] != [TRACE.encode()]:
        return 0
    form.names(TRACE)
    return form.numbers(TRACE)[0]


def entries_of(form):
    """The entries of a trace at the end of an answer to a call, as tuples of words."""
    if form.lines[form.number:form.number + 1] != [WORDS.encode()]:
        return []
    form.names(WORDS)
    words, = form.numbers(WORDS)
    entries = []
    while words > 0:
        entry = tuple(form.line('an entry').split(b' '))
        if not all(NUMBER.fullmatch(word) for word in entry) or len(entry) > words:
            form.fail('should be an entry of at most %d words' % words)
        entries.append(tuple(map(int, entry)))
        words -= len(entry)
    return entries


def given(form):
    form.names(INPUT)
    words = form.line(INPUT).split(b' ')
    if len(words) != 4 or not all(p.fullmatch(w) for p, w in zip((NUMBER, NUMBER, BITS, re.compile(b'[0-9]')), words)):
        form.fail('should be two counts, the size in 16 hexadecimal digits and the stop rule, parted by one space')
    mesh = Mesh(form.source, size=double(words[2]), stop=int(words[3]))
    triangles, points = int(words[0]), int(words[1])
    read_triangles(form, mesh, triangles, points)
    read_points(form, mesh, points)
    form.end()
    return mesh


def answer(form):
    form.names(COUNTS)
    counts = dict(zip(COUNTS.split(), form.numbers(COUNTS)))
    form.names(LENGTHS)
    quads, triangles, points, components = form.numbers(LENGTHS)
    mesh = Mesh(form.source, counts=counts)
    form.names(QUAD)
    for _ in range(quads):
        read_quad(form, mesh, points)
    read_triangles(form, mesh, triangles, points)
    read_points(form, mesh, points)
    form.names(SIZES)
    for _ in range(components):
        form.numbers(SIZES)
    if form.lines[form.number:form.number + 1] == [TRIALS.encode()]:  # the answer to a call
        form.names(TRIALS)
        counts[TRIALS], = form.numbers(TRIALS)
    entries_of(form)
    form.end()
    return mesh


def read_quad(form, mesh, points):
    """A quad's record: nodes, the front edge that it grew from, round, triangles replaced."""
    *nodes, u, v, round, replaced = form.numbers(QUAD)
    form.known(nodes, points)
    if (u, v) != (min(nodes[:2]), max(nodes[:2])):
        form.fail('the quad should have grown from the edge between its first two nodes, not from %d %d' % (u, v))
    if round != len(mesh.quads) + 1:
        form.fail('the quad should be of round %d, not %d' % (len(mesh.quads) + 1, round))
    mesh.add_quad(nodes, (u, v), round, replaced)


def read_triangles(form, mesh, count, points):
    form.names(TRIANGLE)
    for _ in range(count):
        mesh.add_triangle(form.cell(TRIANGLE, points), form.number)


def read_points(form, mesh, count):
    form.names(POINT)
    for i in range(count):
        mesh.add_point(form.point(), i, form.number)


def text(mesh):
    """The input text of a mesh with its size and stop rule."""
    lines = [INPUT, '%d %d %s %d' % (len(mesh.triangles), len(mesh.points), bits(mesh.size), mesh.stop), TRIANGLE]
    lines += ['%d %d %d' % cell for cell in mesh.triangles]
    lines += [POINT] + [' '.join(map(bits, point)) for point in mesh.points]
    return '\n'.join(lines) + '\n'


def call(mesh, capacity, slots):
    return '%s\n%d %d\n' % (CALL, capacity, slots) + text(mesh)
