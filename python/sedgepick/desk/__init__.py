"""The desk: one page in a browser to look at a slab, mesh it and sign for it.

`server` answers the browser, `tasks` runs each piece of work in a child process, `runs` is what the child does, `fields` are the settings, `papers` is the sheet.
The page itself is in `static`. docs/DESK.md says what it shows and what it keeps from strangers."""
