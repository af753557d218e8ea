"""The options of sedgepick-mesh: read, checked and completed. --help and wrong options need no
numpy."""
import argparse
import math
import os
import shlex
import sys
from dataclasses import fields
from . import answers
from .front import RANGES, Quality, cosine_of
from .job import MOST_ALLOWANCE, MOST_MESHES
from .library import VERSION

PAGES = ('.html', '.htm')
# what a report is not, and would be taken for under such a name
NO_REPORT = (
    '.pdf', '.csv', '.svg', '.png', '.jpg', '.jpeg', '.xml', '.doc', '.docx', '.odt', '.rtf', '.ps',
    '.tex', '.xls', '.xlsx', '.zip', '.md',
)
# options that a job takes not, and why
NOT_OF_A_JOB = {
    'node_map': 'it is the table of one mesh',
    'sheet': 'it is that of one mesh; the report has one for each',
    'preview': 'it is that of one mesh',
    'steps': 'they are those of one mesh',
    'jobs': 'its files are run in turn',
    'cluster': 'its files are run in turn',
    'most_attempts': 'its allowance bounds them',
}


def size_of(word):
    """The size that a word says; None for auto."""
    if word == 'auto':
        return None
    try:
        value = float(word)
    except ValueError:
        value = math.nan
    if not 0.0 <= value < math.inf:
        raise argparse.ArgumentTypeError(
            '%r is no size: a length in the units of the file, 0 or auto' % word
        )
    return value


def count_of(word):
    """The whole number from 1 on that a word says."""
    if not word.isdecimal() or int(word) < 1:
        raise argparse.ArgumentTypeError('%r is not a whole number from 1 on' % word)
    return int(word)


def number_from(low, high, kind=float):
    """Reads a number within its bounds."""
    def read(word):
        try:
            value = kind(word)
        except ValueError:
            raise argparse.ArgumentTypeError(
                '%r is not a %snumber' % (word, 'whole ' if kind is int else '')
            )
        if not low <= value <= high:
            raise argparse.ArgumentTypeError(
                '%s is out of range: from %g to %g' % (word, low, high)
            )
        return value
    return read


def angle_of(word):
    """The cosine of a least angle in degrees."""
    low, high = RANGES['largest_cosine']
    try:
        cosine = cosine_of(float(word)) if 0 <= float(word) <= 90 else math.nan
    except ValueError:
        raise argparse.ArgumentTypeError('%r is not a number' % word)
    if not low <= cosine <= high:
        raise argparse.ArgumentTypeError('%s is out of range: from 8.11 to 60 degrees' % word)
    return cosine


def add_quality(parser):
    """Adds the options of the quality set."""
    usual, group = (
        Quality(),
        parser.add_argument_group(
            'quality of the quads', 'What a quad is held to; fewer quads come out where it is more.'
        ),
    )
    add = group.add_argument
    add(
        '--least-jacobian', type=number_from(*RANGES['least_jacobian']),
        default=usual.least_jacobian, metavar='J',
        help='least scaled Jacobian of a quad, from 0 to 1; %(default)s if left out',
    )
    corner = group.add_mutually_exclusive_group().add_argument
    corner(
        '--least-angle', dest='largest_cosine', type=angle_of, default=usual.largest_cosine,
        metavar='DEGREES',
        help="least angle of a quad's corner, from 8.11 to 60 degrees; 25 if left out",
    )
    corner(
        '--largest-cosine', type=number_from(*RANGES['largest_cosine']),
        default=usual.largest_cosine, metavar='C', help='the same by its cosine, from 0.5 to 0.99',
    )
    add(
        '--side-low', type=number_from(*RANGES['side_low']), default=usual.side_low, metavar='F',
        help=(
            'a side node is looked for at this many times the size from the end of an edge at '
            'least, from 0.1 to 4; %(default)s if left out'
        ),
    )
    add(
        '--side-high', type=number_from(*RANGES['side_high']), default=usual.side_high, metavar='F',
        help='and at most; %(default)s if left out',
    )
    add('--pairs', type=number_from(*RANGES['pairs'], int), default=usual.pairs, metavar='N',
        help='pairs of side nodes tried for an edge, from 1 to 64; %(default)s if left out')


def quality_of(options):
    """The quality set of the options."""
    return Quality(
        options.least_jacobian, options.largest_cosine, options.side_low, options.side_high,
        options.pairs,
    )


def check_written(parser, options):
    """That there is something to write, and that what is asked for comes of it."""
    if not options.output:
        if not options.preview and not options.steps:
            parser.error(
                'the following arguments are required: -o/--output (or --preview, or --steps)'
            )
        for name in ('report', 'sheet', 'node_map', 'json'):
            if getattr(options, name):
                parser.error('--%s is of a run: give -o too' % name.replace('_', '-'))
    for path in options.report:
        if path.lower().endswith(NO_REPORT):
            parser.error(
                '--report %s: a report is a page, .html, an object, .json, or text; it is not '
                'written as %s'
                % (path, path[path.rindex('.'):])
            )
    for path in options.preview:
        if not path.lower().endswith(('.svg', *PAGES)):
            parser.error(
                '--preview %s: its name ends in .svg for the picture or in .html for the page'
                % path
            )
    if options.steps and not options.steps.lower().endswith(PAGES):
        parser.error('--steps %s: it is a page, and its name ends in .html' % options.steps)


class Parser(argparse.ArgumentParser):
    """Tells wrong options in a line, without all that can be said, and as an object too where one
    is asked for."""
    wants_json = False

    def error(self, message):
        if self.wants_json:
            answers.show(answers.text_of(answers.refusal(2, message)))
        self.exit(
            2, '%s: error: %s\n%s --help lists every option\n' % (self.prog, message, self.prog)
        )


def check_batch(parser, options):
    """That each of several files has files of its own to write."""
    if options.output == '-':
        parser.error('several files take no -o -: each is written under its name')
    for name in ('report', 'sheet', 'preview', 'node_map', 'steps'):
        given = getattr(options, name)
        for path in given if isinstance(given, list) else [given] if given else []:
            if '*' not in os.path.basename(path):
                parser.error(
                    "--%s %s: with several files it is a path in which * stands for the file's "
                    "name without its suffix"
                    % (name.replace('_', '-'), path)
                )


def check_job(parser, options):
    """That the options fit a job."""
    if len(options.input) > MOST_MESHES:
        parser.error('a job has at most %d files, not %d' % (MOST_MESHES, len(options.input)))
    if options.output == '-':
        parser.error('--job takes no -o -: each file is written under its name')
    for name, why in NOT_OF_A_JOB.items():
        if getattr(options, name):
            parser.error('--job takes no --%s: %s' % (name.replace('_', '-'), why))


def check_streams(parser, options):
    """That standard input and output are used once, and their formats said."""
    if '-' in options.input and len(options.input) > 1:
        parser.error('- is standard input, and is one mesh: give it by itself')
    if '-' in options.input and not options.form:
        parser.error('- reads standard input: --from says the format, such as gmsh, vtu or abaqus')
    if options.output == '-' and not options.to:
        parser.error(
            '-o - writes to standard output: --to says the format, such as gmsh22, vtu or abaqus'
        )
    if options.json and options.output == '-':
        parser.error(
            '--json and -o - both write to standard output: write the mesh to a file, or the '
            'object by --report FILE.json'
        )


def make_parser(description):
    """The parser of all options."""
    parser = Parser(
        prog='sedgepick-mesh', description=description,
        formatter_class=argparse.RawDescriptionHelpFormatter,
    )
    add = parser.add_argument
    add(
        'input', metavar='IN', nargs='+',
        help=(
            'a mesh file with triangles, or several; - is standard input, in the format that '
            '--from names'
        ),
    )
    add(
        '-o', '--output', metavar='OUT',
        help=(
            'the mesh file to write; - is standard output, in the format that --to names; with '
            'several files a folder, where each is written under its name, or a path in '
            "which * stands for the name without its suffix: 'quads/*.vtu'; it may be left out "
            "with --preview and --steps"
        ),
    )
    add(
        '--preview', metavar='FILE', action='append', default=[],
        help=(
            'what each edge of the front would give, tried first: .svg a picture, .html a page '
            'with it, which says of an edge that is pointed at what it gives; may be given twice'
        ),
    )
    add(
        '--steps', metavar='FILE',
        help=(
            'a page, .html, that steps through the mesh as it grew: every insertion, flip and quad '
            'of the run, forward and back'
        ),
    )
    add(
        '--job', type=number_from(1, MOST_ALLOWANCE, int), metavar='ALLOWANCE',
        help=(
            'run the files as one job, in their order, under this many attempts, from 1 to '
            '1,000,000'
        ),
    )
    add(
        '--size', type=size_of, default='auto', metavar='S',
        help=(
            'the length of an edge that the quads should have, in the units of the file; 0: each '
            'edge sets its own; auto, the default: 0.65 of the mean edge, with --raw the best of '
            'six runs, with 0.55 to 0.75 of it and 0 (docs/SIZE.md)'
        ),
    )
    add(
        '--raw', action='store_true',
        help=(
            "write run_front's own answer, which drops nodes and leaves triangles; without it what "
            "is left is closed by a finishing pass"
        ),
    )
    add(
        '--thin', type=number_from(0.0, 60.0), metavar='DEGREES',
        help=(
            'a leftover triangle with a smaller angle is not accepted; 10 if left out, with --raw '
            '0, which asks nothing'
        ),
    )
    add(
        '--grid', action='store_true',
        help=(
            'the grid profile: every node lies on a fixed grid, no node is added, and the summed '
            'area of the cells is that of the triangles, exactly (docs/GRID.md); --size is 0'
        ),
    )
    add(
        '--stop', type=int, choices=(0, 1), default=0,
        help=(
            '0, the default: go on while an edge is open; 1: and leave only even components of '
            'triangles'
        ),
    )
    add(
        '--report', metavar='FILE', action='append', default=[],
        help=(
            'a report: .html with the picture, .json as --json prints it, otherwise text; may be '
            'given twice'
        ),
    )
    add(
        '--json', action='store_true',
        help=(
            'print an object on standard output in place of the summary: counts, verdict, hashes, '
            'warnings, versions; on a refusal its status and words'
        ),
    )
    add(
        '--sheet', metavar='FILE', action='append', default=[],
        help='the quality sheet of the quads: .csv a table, otherwise text; may be given twice',
    )
    add(
        '--allow-loss', action='store_true',
        help=(
            'write the mesh also where a line, a point or a border of the file could not be kept; '
            'what is lost is listed'
        ),
    )
    add(
        '--free', action='store_true',
        help=(
            "do not keep the file's lines, points and borders of surfaces at all; what is lost is "
            "listed"
        ),
    )
    add('--keep-nodes', action='store_true', help='write nodes that no cell has, too')
    add(
        '--node-map', metavar='FILE',
        help=(
            'a table: each node of OUT and its number in IN, both from 1 in the order of the file; '
            'none for added nodes'
        ),
    )
    add(
        '--flatten', action='store_true',
        help=(
            'move the nodes of a surface that is nearly flat onto its plane; what is moved is '
            'told. A plane in any position needs none'
        ),
    )
    add(
        '--from', dest='form', metavar='FORMAT',
        help=(
            "meshio's name of IN's format, where the suffix does not say it or says one that is "
            "not read by itself"
        ),
    )
    add('--to', metavar='FORMAT', help="meshio's name of OUT's format")
    add(
        '--most-attempts', type=number_from(1, 1 << 40, int), metavar='N',
        help=(
            'all parts together make at most so many attempts, each its share; what they have then '
            'is finished and judged'
        ),
    )
    add(
        '--beams', action='store_true',
        help=(
            'in a .inp write lines as B31 beam elements, too; without it they are node sets alone '
            '(docs/DECKS.md)'
        ),
    )
    add(
        '--read-seconds', type=number_from(0.1, 86400), default=60.0, metavar='S',
        help='reading a file may take so long; %(default)g if left out',
    )
    add(
        '--read-memory', type=number_from(16, 1 << 20, int), default=1024, metavar='MB',
        help='and so much memory; %(default)d if left out',
    )
    add(
        '--seconds', type=number_from(0.1, 1e6), metavar='S',
        help=(
            'the whole command may take so long; then it is ended, and nothing is written; of '
            'several files each, and the next is run'
        ),
    )
    add('--jobs', type=count_of, metavar='N', help='parts run at once; all cores if left out')
    add(
        '--cluster', metavar='ADDRESS',
        help=(
            'run the parts, and of several files the files, on the Dask cluster whose scheduler is '
            'there, such as tcp://10.0.0.5:8786'
        ),
    )
    add('-q', '--quiet', action='store_true', help='no summary on standard output')
    add('--version', action='version', version='sedgepick-mesh ' + VERSION)
    add_quality(parser)
    return parser


def arguments(words, description):
    """The options of the command, checked and completed; ends the process where they are wrong."""
    parser = make_parser(description)
    parser.wants_json = '--json' in (sys.argv[1:] if words is None else words)
    options = parser.parse_args(words)
    if options.side_low > options.side_high:
        parser.error(
            '--side-low %g is above --side-high %g' % (options.side_low, options.side_high)
        )
    if options.grid and options.size not in (None, 0.0):
        parser.error('--grid takes no --size but 0: in the profile each edge sets its own')
    check_written(parser, options)
    if options.job:
        check_job(parser, options)
    elif len(options.input) > 1:
        check_batch(parser, options)
    check_streams(parser, options)
    options.files, options.input = options.input, options.input[0]
    options.words = shlex.join(sys.argv[1:] if words is None else words)
    return complete(options)


def complete(options):
    """The options with what is made of them: limits, quality set and settings."""
    from .apart import Limits  # needs numpy, as meshing does
    from .meshing import THIN, Settings
    options.limits = Limits(options.read_seconds, options.read_memory)
    options.quality = quality_of(options)
    if options.thin is None:
        options.thin = 0.0 if options.raw else THIN
    options.settings = Settings(
        **{column.name: getattr(options, column.name) for column in fields(Settings)}
    )
    return options
