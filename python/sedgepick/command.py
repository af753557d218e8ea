"""sedgepick-mesh: a mesh file of triangles in, a mesh file of quads out.

  sedgepick-mesh slab.msh -o quads.msh
  sedgepick-mesh slab.msh -o quads.inp --report report.html --sheet sheet.csv
  sedgepick-mesh ground.msh first.msh roof.msh -o quads --json
  sedgepick-mesh --job 60000 ground.msh first.msh roof.msh -o quads --report job.txt
  sedgepick-mesh - --from gmsh -o - --to vtu < slab.msh > quads.vtu
  sedgepick-mesh slab.msh --preview front.html
  sedgepick-mesh slab.msh -o quads.msh --steps steps.html

The suffix says the format: Gmsh, VTK, VTU, Abaqus .inp, STL, OFF, OBJ, MED, XDMF, Nastran, Medit or
.unv; any other that meshio reads is read where --from names it. Gmsh's .msh is read, and .msh and
.vtu are written, with numpy alone; every other format needs meshio. Reading has limits of time and
memory; files that a mesh file names beside itself are not read.

The triangles are paired into quads by the proved library; those that find no partner stay
triangles. More than 4,096 triangles are cut into parts, which are run on all cores.

What the run leaves between its quads is closed by a finishing pass, which drops and adds no node.
What is written is read back and judged as a whole by the proved accept; where it is not accepted,
nothing is written. --raw writes the run's own answer.

Lines, points and borders of surfaces in the file are kept: they are edges and nodes of what is
written.

Several files are run one after the other, each by itself: one that is refused is reported, and the
next is run; a table at the end has a line for each. -o is a folder then, or a path in which
* stands for the file's name without its suffix; so are the other files to write.

With --job the files, at most 16, are one job: they share an allowance of attempts. Each is entitled
to the whole part of the allowance divided by their number, and to what the one before it left. Each
is run once: with --size auto at 0.65 of its mean edge; with as much memory as the library takes, so
that none has to be run again with more; and not in parts: a file of more than 4,096 triangles or
nodes is refused with 1. A refused file is charged the attempts it began, gets its number, and the
job goes on. All files are read and checked before the first run.

With --preview the file's mesh is drawn, and each edge of its boundary, where the front of a run
begins, is shaded by what it would give: a quad, by its scaled Jacobian, or the kind of refusal.
Each is tried by itself, as the first attempt of a run with the same options; a run tries one after
the other, so its quads are not these all together. Without -o no mesh is written. More than 4,096
triangles are looked at in the parts in which they would be run; the edges between parts are on the
front of both and are shown on either side.

With --steps a page is written that steps through the mesh as it grew: every insertion, flip and
quad of the run in order, forward, back, by a slider or one after the other. It has the mesh as it
is given and the trace of the run, and replays it. Without -o no mesh is written. Parts of a larger
mesh come one after the other.

Every file is made under a temporary name beside its place; all take their names together at the
end, so that a run which is ended leaves what was there.

Exit status: 0 the mesh, the preview or the steps are written; 1 refused, not accepted, or over
--seconds, nothing is written; 2 wrong options; 3 the mesh is written, and something that was a
line, a point or a surface's border in the file is lost (with --allow-loss or --free), or a warning
was given: standard error says what. Of several files and of a job: 1 where a file is refused or not
written, the others are; otherwise 3 where one would have 3. 130, 143 and 129: ended by Ctrl-C,
SIGTERM or SIGHUP, nothing is written."""
import os
from functools import partial
from importlib import import_module
from . import ending
from .options import arguments


def main(words=None):
    """Runs the command; the exit status."""
    options = arguments(words, __doc__.split('\n', 2)[2])
    batch = len(options.files) > 1 and not options.job
    seconds = None if batch and not options.cluster else options.seconds  # of a batch each file has
    kind = 'slabs' if options.job else 'batches' if batch else 'one_file'
    return ending.run(partial(guard, options, kind), seconds, partial(refuse, options))


def guard(options, kind):
    """The exit status of a module's `run`; a fault in words. What needs numpy is imported here, so
    that --help and wrong options do without."""
    try:
        return import_module('.' + kind, __package__).run(options)
    except BrokenPipeError:
        return 1
    except Exception as fault:
        if os.environ.get('SEDGEPICK_TRACEBACK'):
            raise
        return refuse(options, import_module('.telling', __package__).fault_words(fault))


def refuse(options, words, status=1):
    """Says why nothing is written; the exit status."""
    return import_module('.telling', __package__).refuse(options, words, status)
