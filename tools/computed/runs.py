#!/usr/bin/env python3
"""runs.py: writes crates/runs/specs from answers/computed.txt: a theorem by one computation for each small answer, and for each stored call."""
from common import ROOT, answer, call_answer, literal, listed, named, write

EACH = 20
HEAD = '''-- Answers of the Rust, each one theorem by computation: `reply` of the input is the output. Made by tools/computed/runs.py from answers/small.
use Rattle.std.specs.Prelude.{◌≡◌, refl}
use Rattle.definition.specs.Text.{bytes, reply}
use Rattle.vectors.specs.Opened.{opened}
'''
CALLS = '''-- Calls that end for want of lent memory, each one theorem by computation: what is answered, and what every slice holds at exit.
-- Made by tools/computed/runs.py from answers/calls. At entry the outputs and the work hold numbers of no meaning.
use Rattle.std.specs.Prelude.{◌≡◌, refl, false, List, [], ◌∷◌, ◌++◌, map, ℕ, ◌+◌, ◌*◌, ◌-◌, length, replicate, Float}
use Rattle.std.specs.Float.{nan}
use Rattle.definition.specs.Floats.{f64, 0·0}
use Rattle.definition.specs.Numbers.{base}
use Rattle.definition.specs.Call.{Asked, Lent, refusal, call}
use Rattle.vectors.specs.Opened.{opened}

-- the slices: points so far with the rest of the capacity, triangles, quads so far with the rest, and what the others hold
abbrev lent : ℕ → ℕ → List ℕ → List ℕ → List ℕ → ℕ → Float → Lent
lent capacity slots points triangles quads d f =
    record {
      points = map f64 points ++ replicate (3 * capacity - length points) nan;
      triangles = triangles;
      joints = [];
      quads = quads ++ replicate (8 * slots - length quads) 7;
      triangles_out = replicate (3 * slots) 7;
      components = replicate slots 7;
      work = replicate (64 * slots + 8 * capacity) d;
      float_work = replicate (4 * slots) f;
      trace = [];
    }
'''


def numbers(values):
    return '(' + ' ∷ '.join(list(values) + ['[]']) + ')'


def call_theorem(name):
    c = call_answer(name)
    slices = 'lent %s %s %%s %s %%s %%s' % (c['capacity'], c['slots'], numbers(c['triangles']))
    entry = slices % (numbers('0x' + w for w in c['given']), '[]', '5 nan')
    left = slices % (numbers('0x' + w for w in c['points']), numbers(c['quads']), '0 0·0')
    asked = 'record { given = %d; capacity = %s; count = %d; slots = %s; joints = 0; size = f64 0x%s; stop = %s; quality = base; grid = false }' % (
        len(c['given']) // 3, c['capacity'], len(c['triangles']) // 3, c['slots'], c['size'], c['stop'])
    return '''
asked_%(n)s : Asked
asked_%(n)s = %(asked)s

%(n)s : call asked_%(n)s (%(entry)s) ≡ record { answer = refusal %(number)s; lent = %(left)s }
unfolding opened asked_%(n)s
%(n)s = refl
''' % dict(n=named(name), asked=asked, entry=entry, left=left, number=c['refused'])


plain, calls = listed(''), listed('call')
files = [plain[i:i + EACH] for i in range(0, len(plain), EACH)]
for k, part in enumerate(files):
    text = HEAD
    for name in part:
        given, expected = answer(name)
        text += '\n%s : reply (bytes %s) ≡ bytes %s\nunfolding opened\n%s = refl\n' % (named(name), literal(given), literal(expected), named(name))
    write(ROOT + '/crates/runs/specs/Answers%d.antt' % k, text)
write(ROOT + '/crates/runs/specs/Calls.antt', CALLS + ''.join(call_theorem(c) for c in calls))
write(ROOT + '/crates/runs/specs/Lib.antt', ''.join('pub mod Answers%d\n' % k for k in range(len(files))) + 'pub mod Calls\n')
write(ROOT + '/crates/runs/src/lib.rt', '// Small answers of the Rust as theorems of specs/; this crate has no functions.\n#![tactic(auto)]\n')
print(len(plain), 'runs,', len(calls), 'calls')
