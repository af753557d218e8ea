"""Several files, one after the other or on a cluster: each by itself, past those that are refused,
with a table at the end."""
from __future__ import annotations
import copy
import json
import os
import time
from typing import Any, Callable, Iterator
from . import answers, clusters, ending, library, mesh_files, meshing
from .one_file import check_outputs, make
from .surfaces import Fault, visible
from .telling import fault_words, say, show, tell

COLUMNS = ('file', 'outcome', 'triangles', 'quads', 'left', 'quads %', 'least angle', 'seconds')


def run(options: Any) -> int:
    """Runs the files in turn; the exit status."""
    library.load()
    found = []
    run_all = run_on_cluster if options.cluster else run_in_turn
    for options.input, outcome in run_all(options, own_options(options)):  # the file of a fault
        found.append(outcome)
    status = status_of([own['status'] for own in found])
    show(options, format_table(found))
    if options.json:
        answers.show(answers.text_of(answers.several(status, found)))
    return status


def status_of(statuses: list[int]) -> int:
    """The exit status of several files: 1 where one is not written, otherwise 3 where one has a
    warning."""
    return 1 if any(status not in (0, 3) for status in statuses) else 3 if 3 in statuses else 0


def own_outputs(options: Any) -> list[str | None]:
    """The file that the mesh of each file is written to; None without -o."""
    if not options.output:
        return [None] * len(options.files)
    found: list[str | None] = []
    folder = os.path.isdir(options.output)
    if not folder and '*' not in os.path.basename(options.output):
        raise Fault(
            '-o %s: with %s it is a folder that is there, or a path in which * stands for the '
            "file's name without its suffix"
            % (options.output, '--job' if options.job else 'several files')
        )
    for options.input in options.files:
        name = os.path.basename(options.input)
        path = (
            os.path.join(options.output, name) if folder
            else options.output.replace('*', os.path.splitext(name)[0])
        )
        if path in found:
            raise Fault('%s would be written twice: give the files different names' % path)
        if any(is_same(path, given) for given in options.files):
            raise Fault('%s would be written over: name another folder with -o' % path)
        found.append(path)
    return found


def is_same(path: str, other: str) -> bool:
    """Whether both are there and are one file."""
    return os.path.exists(path) and os.path.exists(other) and os.path.samefile(path, other)


def own_options(options: Any) -> list[Any]:
    """The options of each file: its name in place of every *."""
    found: list[Any] = []
    every: set[str] = set()
    for path, output in zip(options.files, own_outputs(options)):
        own, stem = copy.copy(options), os.path.splitext(os.path.basename(path))[0]
        named = lambda given: given and given.replace('*', stem)
        own.input, own.output = path, output
        own.node_map, own.steps = named(options.node_map), named(options.steps)
        own.report, own.sheet, own.preview = (
            list(map(named, given)) for given in (options.report, options.sheet, options.preview)
        )
        for place in [output, own.node_map, own.steps, *own.report, *own.sheet, *own.preview]:
            if place in every:
                raise Fault('%s would be written twice: give the files different names' % place)
            every |= {place} if place else set()
        found.append(own)
    return found


def run_in_turn(options: Any, owns: list[Any]) -> Iterator[tuple[str, dict[str, Any]]]:
    """(file, what came of it), one after the other."""
    for own in owns:
        options.input = own.input
        yield own.input, run_within(own, make) if own.seconds else run_one(own, make)


def run_on_cluster(options: Any, owns: list[Any]) -> Iterator[tuple[str, dict[str, Any]]]:
    """(file, what came of it): all are read and planned here, run on the cluster, and finished here
    in their order."""
    begun = {own.input: catch(lambda: prepare(own)) for own in owns}
    ready = [own for own in owns if not isinstance(begun[own.input], Exception)]
    with clusters.Cluster(options.cluster) as cluster:
        task = meshing.Meshing(trace=any(own.steps for own in owns))
        runs = cluster.in_turn(task, [begun[own.input].bare() for own in ready])
        waiting = dict(zip((own.input for own in ready), runs))

        def finish(own: Any) -> Any:
            work = begun.pop(own.input)
            if isinstance(work, Exception):
                raise work
            work.take(waiting[own.input]())
            return make(own, work)
        for own in owns:
            options.input = own.input
            yield own.input, run_one(own, finish)


def prepare(own: Any) -> Any:
    """Reads and plans a file that can be written."""
    begin = time.perf_counter()
    check_outputs(own)
    work = mesh_files.prepare(own)
    work.seconds = time.perf_counter() - begin
    return work


def catch(call: Callable[[], Any]) -> Any:
    """What the call gives, or the fault that it raises."""
    try:
        return call()
    except Exception as fault:
        return fault


def run_one(own: Any, call: Callable[[Any], Any]) -> dict[str, Any]:
    """What came of a file, as --json prints it; notes, warnings and a fault are said."""
    try:
        work = call(own)
    except BrokenPipeError:
        raise
    except Exception as fault:
        if os.environ.get('SEDGEPICK_TRACEBACK'):
            raise
        say('%s: %s' % (own.input, fault_words(fault)))
        return answers.refusal(1, fault_words(fault), answers.shown_name(own.input))
    show(own, work.told)
    tell(work, work.surface.name + ': ')
    return work.facts or {
        'schema': answers.SCHEMA, 'status': 3 if work.warnings else 0, 'words': 'drawn',
        'input': {'name': work.surface.name, 'sha256': work.surface.sha256},
    }


def run_within(own: Any, call: Callable[[Any], Any]) -> dict[str, Any]:
    """What came of a file that is run in a child, which is ended when its time is over."""
    handed = os.memfd_create('outcome')
    ended: list[str] = []

    def child() -> int:
        found = run_one(own, call)
        with open(handed, 'w', closefd=False) as file:
            json.dump(found, file)
        return found['status']

    def note(words: str, status: int = 1) -> int:
        ended.append(words)
        return say('%s: %s' % (own.input, words))
    try:
        ending.run_within(child, own.seconds, note)
        if ended:
            return answers.refusal(1, ended[0], answers.shown_name(own.input))
        os.lseek(handed, 0, os.SEEK_SET)
        with open(handed, closefd=False) as file:
            return json.load(file)
    finally:
        os.close(handed)


def format_table(found: list[dict[str, Any]]) -> list[str]:
    """Lines, one for each file, under the names of the columns."""
    rows = [COLUMNS] + [format_row(own) for own in found]
    whole = [row for row in rows if len(row) == len(COLUMNS)]
    wide = [max(len(row[place]) for row in whole) for place in range(len(COLUMNS))]
    wide[0] = max(len(row[0]) for row in rows)
    wide[1] = max(len(word) for word in ('outcome', 'refused', 'warning'))
    lines = [
        '  '.join([
            row[0].ljust(wide[0]),
            row[1].ljust(wide[1]) if len(row) > 2 else row[1],
            *(word.rjust(width) for word, width in zip(row[2:], wide[2:])),
        ])
        for row in rows
    ]
    done = sum(own['status'] in (0, 3) for own in found)
    counts = '%d files: %d written, %d refused' % (len(found), done, len(found) - done)
    return [visible(line.rstrip()) for line in lines] + [counts]


def format_row(own: dict[str, Any]) -> tuple[str, ...]:
    """The words of a file; of one that is refused its name and why."""
    if own['status'] not in (0, 3):
        return own['input']['name'], 'refused  ' + own['words']
    if 'quads' not in own:
        return own['input']['name'], own['words']
    angles = [own['least_angle_of_quads'], own['least_angle_of_triangles']]
    return (
        own['input']['name'], 'warning' if own['status'] else 'written',
        str(own['input']['triangles']), str(own['quads']), str(own['triangles']),
        '%.1f' % (100 * own['share_of_quads']),
        '%.1f' % min(angle for angle in angles if angle is not None),
        '%.1f' % own['seconds'],
    )
