"""How the pages look that are written beside a mesh: light and dark, on a phone and on paper, with pictures that can be zoomed."""
import os
from html import escape

HERE = os.path.dirname(os.path.abspath(__file__))
SCRIPTS = ('draw.js', 'zoom.js')  # the first is the desk's too
# Pictures have colours that mean something, and stand on white in the dark scheme too.
STYLE = """:root { --paper: #ffffff; --ink: #1a1a1a; --dim: #555555; --line: #dddddd; --warn: #fff3cd; --warn-line: #d39e00; --focus: #0d6270; color-scheme: light dark; }
@media screen and (prefers-color-scheme: dark) { :root { --paper: #171c21; --ink: #e8edf1; --dim: #a3b0bb; --line: #36414a; --warn: #3a2f12; --warn-line: #d39e00; --focus: #5cc4cf; } }
body { font: 15px/1.45 'DejaVu Sans', Verdana, Arial, sans-serif; color: var(--ink); background: var(--paper); margin: 24px auto; max-width: 1240px; padding: 0 16px; }
h1 { font-size: 22px; overflow-wrap: anywhere; } h2 { font-size: 16px; margin: 22px 0 6px; } svg { max-width: 100%; height: auto; } p { overflow-wrap: anywhere; } .date { color: var(--dim); margin: -8px 0 0; }
svg.sheet text { fill: currentColor; }
.insets { display: flex; flex-wrap: wrap; gap: 10px; margin-top: 10px; } figure { margin: 0; } figure svg { display: block; background: #ffffff; border-radius: 6px; border: 1px solid var(--line); } figcaption { font-size: 13px; color: var(--dim); }
.lists { columns: 2; column-gap: 36px; } section { break-inside: avoid; } table { border-collapse: collapse; width: 100%; }
td { border-top: 1px solid var(--line); padding: 3px 8px 3px 0; vertical-align: top; overflow-wrap: anywhere; } td:first-child { color: var(--dim); width: 34%; }
.lists h2 { margin-top: 0; padding-top: 22px; }
.warning { background: var(--warn); border-left: 4px solid var(--warn-line); padding: 6px 12px; margin: 4px 0; }
.board { display: flex; gap: 12px; align-items: flex-start; background: #ffffff; border-radius: 6px; border: 1px solid var(--line); padding: 10px; } .board .legend { flex: none; color: #1a1a1a; }
.sight { position: relative; flex: 1; min-width: 0; min-height: 300px; max-height: 82vh; border: 1px solid #c9c9c9; } .sight canvas { position: absolute; inset: 0; width: 100%; height: 100%; cursor: grab; touch-action: pan-x pan-y; }
.sight canvas:active { cursor: grabbing; } .zoom { position: absolute; right: 8px; top: 8px; display: flex; gap: 4px; } .zoom button { font: inherit; font-size: 14px; min-width: 34px; padding: 5px 9px;
  border: 1px solid #b5b5b5; border-radius: 6px; background: #ffffff; color: #1a1a1a; cursor: pointer; } .insets figure[role=button] { cursor: pointer; }
:focus-visible { outline: 2px solid var(--focus); outline-offset: 2px; } .sight :focus-visible { outline-color: #0d6270; } .sight canvas:focus-visible { outline-offset: -2px; }
@media screen { svg.paper { display: none; } }
@media screen and (max-width: 760px) { .board { flex-direction: column; align-items: stretch; } .board .legend { align-self: flex-start; } .sight { flex: none; max-height: none; } }
@media (max-width: 760px) { body { margin: 12px auto; font-size: 14px; } .lists { columns: 1; } h1 { font-size: 19px; } }
@media screen and (max-width: 760px) { .chart { overflow-x: auto; } .chart svg { max-width: none; width: 900px; } }
@media print { @page { size: A4; margin: 12mm; } body { max-width: none; margin: 0; padding: 0; font-size: 9.5pt; } .board:not(.live), .zoom { display: none; } .board.live { border: 0; padding: 0; } h1 { font-size: 15pt; } h2 { font-size: 11pt; break-after: avoid; }
  svg, figure, tr { break-inside: avoid; } section { break-inside: auto; } .lists { columns: 2; column-gap: 8mm; font-size: 8.5pt; break-before: page; } .lists h2 { padding-top: 4mm; }
  .live .sight { max-height: none; min-height: 0; } .live .legend { width: 46mm; height: auto; }
  .insets { gap: 3mm; } .insets svg { width: 33mm; height: 33mm; } }"""


def bodied(title: str, content: str, more: str = '') -> str:
    """A page that needs nothing beside itself; `more` are scripts that follow those of the pictures."""
    script = ''
    if 'class="picture"' in content:
        for name in SCRIPTS:
            with open(os.path.join(HERE, name), encoding='utf-8') as file:
                script += '<script>\n%s</script>\n' % file.read()
    return ('<!doctype html>\n<html lang="en"><head><meta charset="utf-8"><meta name="viewport" content="width=device-width, initial-scale=1"><title>%s</title><style>%s</style></head>\n'
            '<body>%s%s</body></html>\n' % (escape(title), STYLE, content, script + more))
