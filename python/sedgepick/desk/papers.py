"""The acceptance sheet: one A4 page with the verdict clause by clause, the files by their hashes, and a line for a name. Where the mesh is not accepted it has no such line."""
import hashlib
from html import escape
from .. import library, quality, report, verdicts
from ..surfaces import visible

STYLE = """:root { color-scheme: light; }
* { box-sizing: border-box; }
body { font: 9.5pt/1.36 'Source Sans 3', 'Segoe UI', 'Helvetica Neue', 'DejaVu Sans', Arial, sans-serif; color: #16202a; background: #ffffff; margin: 0 auto; padding: 14mm 16mm; max-width: 210mm; }
h1 { font-size: 17pt; margin: 0 0 1mm; letter-spacing: -0.01em; } h2 { font-size: 9.5pt; margin: 4mm 0 0.8mm; color: #45525f; font-weight: 600; }
.verdict { border: 0.5mm solid #0b6b4f; border-radius: 2mm; padding: 2.5mm 4mm; margin: 4mm 0 0; font-size: 13pt; font-weight: 700; color: #0b6b4f; display: flex; gap: 3mm; align-items: baseline; }
.verdict.no { border-color: #a8201a; color: #a8201a; } .verdict span { font-size: 10pt; font-weight: 400; color: #16202a; }
table { border-collapse: collapse; width: 100%; } td { border-top: 0.2mm solid #d5dbe1; padding: 0.6mm 3mm 0.6mm 0; vertical-align: top; overflow-wrap: anywhere; }
td:first-child { width: 25%; color: #45525f; } .mark { width: 7mm; font-weight: 700; color: #0b6b4f; } td.mark:first-child { width: 7mm; color: #0b6b4f; }
.clauses { columns: 2; column-gap: 8mm; border-top: 0.2mm solid #d5dbe1; padding-top: 0.8mm; } .clauses div { break-inside: avoid; padding: 0.5mm 0 0.5mm 6mm; text-indent: -6mm; } .clauses b { display: inline-block; width: 6mm; text-indent: 0; color: #0b6b4f; }
.clauses .no b { color: #a8201a; }
code { font: 8.1pt/1.35 'DejaVu Sans Mono', Consolas, monospace; }
.sign { display: grid; grid-template-columns: 2fr 1fr 2fr; gap: 8mm; margin-top: 8mm; break-inside: avoid; align-items: end; } .sign label { font-size: 8.5pt; color: #45525f; display: block; }
.sign input { width: 100%; border: 0; border-bottom: 0.3mm solid #16202a; font: inherit; font-size: 12pt; padding: 0 0 1mm; background: none; border-radius: 0; }
.sign input:focus { outline: 0.5mm solid #1b5fc4; outline-offset: 1mm; }
.sign .line { height: 7.1mm; border-bottom: 0.3mm solid #16202a; }
p.foot { font-size: 8.5pt; color: #45525f; margin: 4mm 0 0; } .warning { border-left: 1mm solid #b35c00; padding-left: 3mm; margin: 1.5mm 0; }
@media print { @page { size: A4; margin: 14mm 16mm; } body { padding: 0; max-width: none; } .sign input:focus { outline: none; } }
@media (max-width: 600px) { body { padding: 16px; } .sign { grid-template-columns: 1fr; gap: 12px; } .clauses { columns: 1; } }"""
WARNINGS = 3   # that the sheet has room for
LOSSES = 4


def sha256(path: str) -> str:
    """The SHA-256 of a file's bytes."""
    with open(path, 'rb') as file:
        return hashlib.sha256(file.read()).hexdigest()


def facts_of(work, drawn: dict) -> dict:
    """What the sheet says, of a run that was judged."""
    chosen, surface = work.options, work.surface
    q = chosen.quality
    corner = q.least_angle()
    least = float(quality.least_angles(work.points, work.result.triangles).min()) if drawn['left'] else 60.0
    waived = bool(work.judged.excused)  # the given triangles are thin themselves: the verdict asks nothing of triangles, and a warning says so
    thin = 'at least %g degrees' % chosen.thin if chosen.thin and not waived else 'an area, and no least angle' + (', since given triangles are under %g degrees themselves' % chosen.thin if chosen.thin else '')
    return {
        'date': drawn['date'], 'given': (surface.name, surface.sha256, '%d triangles, %d nodes' % (len(surface.triangles.cells), len(set(surface.triangles.cells.ravel().tolist())))),
        'made': (chosen.output, drawn['output_sha256'], '%s and %s' % (report.many(drawn['quads'], 'quad'), report.many(drawn['left'], 'triangle'))),
        'accepted': drawn['accepted'], 'clauses': work.verdict or work.judged.rows(), 'thin': chosen.thin and not waived, 'warnings': work.warnings, 'losses': drawn['losses'],
        'limits': [('quality set', report.quality_words(q)), ('corner of a quad', 'at least %.6g degrees, to 1e-9 of its cosine' % corner),
                   ('corner of a triangle', thin),
                   ('profile, stop rule', '%s, %d' % ('grid' if chosen.grid else 'none', chosen.stop)), ('size', drawn['size'])],
        'measured': [('least angle', '%.2f degrees of quads%s' % (drawn['least_angle'], ', %.2f degrees of triangles' % least if drawn['left'] else '')) if drawn['quads'] else ('quads', 'none'),
                     *([('scaled Jacobian', '%.4f least, %.4f mean' % (drawn['least_jacobian'], drawn['mean_jacobian']))] if drawn['quads'] else []),
                     ('nodes', '%d added, %d dropped' % (drawn['added'], drawn['dropped']))],
        'library': [('library', 'sedgepick %s, interface %d, commit %s' % (library.version(), library.abi(), library.commit())), ('build', library.build())],
    }


def rows(pairs) -> str:
    return ''.join('<tr><td>%s</td><td>%s</td></tr>' % (escape(visible(str(name))), escape(visible(str(words)))) for name, words in pairs)


def clause_rows(clauses, thin) -> str:
    """Each clause, marked where it holds; then the verdict's other facts. Of triangles nothing is asked where `thin` is 0."""
    found, facts = '', []
    for name, words in clauses:
        if name == verdicts.THIN and not thin:
            found += '<div><b>&ndash;</b>%s: not asked</div>' % escape(upper(name))
        elif words == 'yes':
            found += '<div><b>&#10003;</b>%s</div>' % escape(upper(name))
        elif str(words).startswith('no: '):
            found += '<div class="no"><b>&#10007;</b>%s: %s</div>' % (escape(upper(name)), escape(visible(words[4:])))
        elif name not in ('accepted', 'least angle asked of triangles'):
            facts.append((name, words))
    return '<div class="clauses">%s</div><table>%s</table>' % (found, rows(facts))


def upper(words: str) -> str:
    return words[:1].upper() + words[1:]


def file_rows(title, name, digest, words) -> str:
    return '<tr><td>%s</td><td><b>%s</b>, %s<br><code>SHA-256 %s</code></td></tr>' % (title, escape(visible(name)), escape(words), escape(digest))


ACCEPTED = '<div class="verdict">Accepted <span>as a whole, by the proved judge <code>accept</code>, in exact arithmetic</span></div>'
REFUSED = '<div class="verdict no">NOT ACCEPTED <span>by the proved judge <code>accept</code>, in exact arithmetic; no mesh is written</span></div>'
SIGN = ('<div class="sign"><div><label for="name">Name</label><input id="name" autocomplete="name"></div><div><label for="day">Date</label><input id="day"></div>'
        '<div><label>Signature</label><div class="line"></div></div></div>\n'
        '<p class="foot">The judge is proved: what it accepts has every clause above. Reading, finishing, writing and this sheet are tested, not proved. '
        'A file belongs to this sheet where its SHA-256 is the one above.</p>')
NO_SIGN = '<p class="foot">There is nothing to sign: the mesh does not hold every clause, and it is not written. The judge is proved; this sheet is tested, not proved.</p>'


def sheet(facts: dict) -> str:
    """The sheet as a page that needs nothing beside itself and no script."""
    accepted = facts['accepted']
    title, verdict, end = ('Acceptance sheet', ACCEPTED, SIGN) if accepted else ('Verdict', REFUSED, NO_SIGN)
    made = file_rows('mesh', *facts['made']) if accepted else '<tr><td>mesh</td><td>%s, not written</td></tr>' % escape(facts['made'][2])
    warnings = facts['warnings'][:WARNINGS] + ['%d more in the report' % (len(facts['warnings']) - WARNINGS)] * (len(facts['warnings']) > WARNINGS)
    losses = facts['losses'][:LOSSES] + ['%d more in the report' % (len(facts['losses']) - LOSSES)] * (len(facts['losses']) > LOSSES)
    return ('<!doctype html>\n<html lang="en"><head><meta charset="utf-8"><meta name="viewport" content="width=device-width, initial-scale=1">'
            '<title>%s: %s</title><style>%s</style></head>\n<body><h1>%s</h1>\n<div>%s &middot; %s</div>\n%s\n%s'
            '<h2>Files</h2><table>%s%s</table>\n<h2>The verdict, clause by clause</h2>%s\n<h2>Limits it was held to</h2><table>%s</table>\n'
            '<h2>Measured</h2><table>%s</table>\n<h2>Made and judged by</h2><table>%s</table>\n%s</body></html>\n'
            % (title, escape(visible(facts['given'][0])), STYLE, title, escape(visible(facts['given'][0])), escape(facts['date']), verdict,
               ''.join('<div class="warning">%s</div>' % escape(visible(words)) for words in warnings),
               file_rows('given', *facts['given']), made, clause_rows(facts['clauses'], facts['thin']), rows(facts['limits']),
               rows(facts['measured'] + [('lines, points, borders', '; '.join(losses) or 'none in the file')]), rows(facts['library']), end))
