"""What the makers of computed theorems share: the names that a computation unfolds, and texts as antt literals."""
import os
import re

ROOT = os.path.dirname(os.path.dirname(os.path.dirname(os.path.abspath(__file__))))
SPECS = ROOT + '/crates/definition/specs/'
IEEE = 'add sub mul div neg lt le eq of_bits to_bits ieee_round ieee_size'
# the walks over edges, loops and rounds, which a chain of attempts keeps shut
WALKS = ['front_loop', 'try_edges', 'try_loops', 'round']


def names():
    """the definitions of each file that computes"""
    files = [l.split()[-1] for l in open(SPECS + 'Lib.antt') if l.startswith('pub mod')]
    return {f: re.findall(r'^ *unfoldable pub (\S+)', open(SPECS + f + '.antt').read(), re.M) for f in files if f not in ('Exact', 'Account', 'Sheet')}


def literal(data):
    """bytes as a string literal"""
    out = ''
    for c in data.decode('latin1'):
        out += {'\n': '\\n', '"': '\\"', '\\': '\\\\'}.get(c, c)
    return '"' + out + '"'


def named(name):
    """the theorem's name of a stored case: words of the logic are joined by _"""
    return name.replace('-', '_')


def answer(name):
    """a stored input and the Rust's answer to it"""
    stem = ROOT + '/answers/small/' + name
    return open(stem + '.in', 'rb').read(), open(stem + '.out', 'rb').read()


def write(path, text):
    os.makedirs(os.path.dirname(path), exist_ok=True)
    open(path, 'w').write(text)


def listed(word):
    """the names of answers/computed.txt that stand alone, or after the word"""
    lines = [l.split() for l in open(ROOT + '/answers/computed.txt') if l.strip() and not l.startswith('#')]
    return [l[-1] for l in lines if l[:-1] == ([word] if word else [])]


def call_answer(name):
    """a stored call that was refused with 8 or 9: its numbers, and what it left"""
    stem = ROOT + '/answers/calls/' + name
    given, left = [open(stem + e).read().split('\n') for e in ('.call', '.out')]
    capacity, slots = given[1].split()
    count, points, size, stop = given[3].split()
    triangles = [w for l in given[5:5 + int(count)] for w in l.split()]
    coordinates = [w for l in given[6 + int(count):6 + int(count) + int(points)] for w in l.split()]
    assert left[0] == 'refused' and left[1] in '89', name
    quads, total = map(int, left[3].split())
    return dict(capacity=capacity, slots=slots, size=size, stop=stop, triangles=triangles, given=coordinates, refused=left[1],
                quads=[w for l in left[5:5 + quads] for w in l.split()], points=[w for l in left[6 + quads:6 + quads + total] for w in l.split()])
