"""One mesh file: what sedgepick-mesh makes of it, its mesh, sheets, reports, preview and steps."""
from __future__ import annotations
import contextlib
import time
from typing import Any, Callable
from . import (
    answers, clusters, facts, library, mesh_files, meshing, outputs, preview_edges, preview_page,
    report, steps_page, writing,
)
from .options import PAGES
from .telling import show, show_progress, tell


def check_folders(options: Any) -> None:
    """That the files to write can be, before a long run, and that none is written over another or
    over one that is read."""
    paths = [
        options.output, options.node_map, options.steps, *options.report, *options.sheet,
        *options.preview,
    ]
    outputs.check([path for path in paths if path], options.files)


def check_outputs(options: Any) -> None:
    """That what is to be written can be, and that its format takes quads."""
    check_folders(options)
    if options.output:
        writing.check_form(options.output, options.to)


def run(options: Any) -> int:
    """Runs one file; the exit status."""
    work = make(options)
    show(options, work.told)
    tell(work)
    if options.json:
        answers.show(answers.text_of(work.facts))
    return 3 if work.warnings else 0


def make(options: Any, work: Any = None) -> Any:
    """Makes the files of one mesh file; `work` is one that is prepared, or run, already."""
    library.load()
    if work is None:
        check_outputs(options)
    begin = time.perf_counter()
    work = work or mesh_files.prepare(options)
    with outputs.Outputs() as work.outputs:
        if options.output or options.steps:
            make_mesh(work, begin)
        if options.preview:
            draw_preview(work, begin)
        work.facts = facts.facts_of(work) if options.output else None
        work.outputs.commit()
    return work


def make_mesh(work: Any, begin: float) -> None:
    """Runs the file and makes the mesh, its sheets, its reports and its steps."""
    options = work.options
    if work.result is None:
        with open_cluster(options) as cluster:
            meshing.run(work, show_progress, trace=bool(options.steps), cluster=cluster)
    mesh_files.check_losses(work)
    if options.output:
        mesh_files.written(work)
    work.seconds += time.perf_counter() - begin
    put_reports(work)
    if options.output:
        work.told.append(report.summary(work))
    if options.steps:
        put(work.outputs, [options.steps], lambda page: steps_page.page(work))
        work.told.append(steps_page.summary(work))


def open_cluster(options: Any) -> Any:
    """The cluster that is asked for, or none; with `with`."""
    return clusters.Cluster(options.cluster) if options.cluster else contextlib.nullcontext()


def put_reports(work: Any) -> None:
    """Makes the reports, each as its name says."""
    objects = [path for path in work.options.report if path.lower().endswith('.json')]
    others = [path for path in work.options.report if path not in objects]
    put(work.outputs, others, lambda page: report.page(work) if page else report.text(work))
    put(work.outputs, objects, lambda page: answers.text_of(facts.facts_of(work)))


def draw_preview(work: Any, begin: float) -> None:
    """Looks at the front before the run, with the sizes of the run where there was one, and draws
    it."""
    options, result = work.options, work.result
    work.looked = preview_edges.looked(
        work.plan, options.stop, options.quality, result and result.sizes, show_progress,
        options.jobs,
    )
    if result is None:
        work.surface.notes += work.plan.notes
        words = 'few edges or none give a quad (%d here)' % len(work.looked.quads())
        meshing.warn_odd(work, work.plan.odd(), words)
    work.seconds = time.perf_counter() - begin
    put(
        work.outputs, options.preview,
        lambda page: preview_page.page(work) if page else preview_page.drawn(work),
    )
    work.told.append(preview_page.summary(work))


def put(into: outputs.Outputs, paths: list[str], content: Callable[[bool], str]) -> None:
    """Makes text files; `content` is asked whether a page is wanted."""
    for path in paths:
        into.text(path, content(path.lower().endswith(PAGES)))
