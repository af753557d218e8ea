#!/usr/bin/env python3
"""opened.py: writes crates/vectors/specs/Opened.antt, the one list of what a proof by computation unfolds."""
from common import IEEE, ROOT, WALKS, names, write

files = names()
text = '-- To unfold `opened` is to unfold the whole definition: what its line names, and what theirs do. Made by tools/computed/opened.py.\n'
text += 'use Rattle.std.specs.Float.Ieee.{add, sub, mul, div, neg, lt, le, eq, of_bits, to_bits, round as ieee_round, size as ieee_size}\n'
for f, defs in files.items():
    text += 'use Rattle.definition.specs.%s.{%s}\n' % (f, ', '.join(defs))
shut = [n for defs in files.values() for n in defs if n not in WALKS]
text += '\n-- all but the walks over edges, loops and rounds\nunfoldable pub opened_attempts : Unit {0}\nunfolding %s %s\nopened_attempts = tt\n' % (IEEE, ' '.join(shut))
text += '\n-- all\nunfoldable pub opened : Unit {0}\nunfolding opened_attempts %s\nopened = tt\n' % ' '.join(WALKS)
write(ROOT + '/crates/vectors/specs/Opened.antt', text)
