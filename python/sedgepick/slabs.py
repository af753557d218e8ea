"""Several files as one job: their meshes run in turn under one attempt allowance."""
from __future__ import annotations
import copy
import time
from typing import Any
from . import answers, facts, library, mesh_files, meshing, report
from .batches import own_outputs, status_of
from .front import Refused
from .job import Job
from .one_file import check_outputs, put
from .outputs import Outputs
from .sizes import single
from .surfaces import Fault
from .telling import say, show, tell


def run(options: Any) -> int:
    """Runs the files in turn; the exit status."""
    library.load()
    works, job = read_all(options), Job(len(options.files), options.job)
    with Outputs() as outputs:
        for work in works:
            work.outputs = outputs
            run_one(work, job)
        found = object_of(works, job)
        objects = [path for path in options.report if path.lower().endswith('.json')]
        put(
            outputs, [path for path in options.report if path not in objects],
            lambda page: report.job_page(works, job) if page else report.job_text(works, job),
        )
        put(outputs, objects, lambda page: answers.text_of(found))
        outputs.commit()
    for work in works:
        tell(work, work.surface.name + ': ')
        if work.fault:
            say('%s: %s' % (work.options.input, work.fault))
        show(options, ([] if work.fault else [report.summary(work)]) + [report.slab_words(work)])
    show(options, [report.job_words(job)])
    if options.json:
        answers.show(answers.text_of(found))
    return found['status']


def object_of(works: list[Any], job: Job) -> dict[str, Any]:
    """What --json prints of the job."""
    found = [
        {
            **answers.refusal(1, work.fault, work.surface.name),
            'job': facts.account_of(work.slab),
        }
        if work.fault else facts.facts_of(work) for work in works
    ]
    return answers.several(
        status_of([own['status'] for own in found]), found,
        job={
            'allowance': job.allowance, 'charged': job.charged, 'share': job.share,
            'left': job.left,
        },
    )


def read_all(options: Any) -> list[Any]:
    """Every file read, checked and fitted before the first run: a fault of one stops the
    command."""
    works = []
    for options.input, output in zip(options.files, own_outputs(options)):  # the file of a fault
        own = copy.copy(options)
        own.output = output
        check_outputs(own)
        work = mesh_files.prepare(own, whole=True)
        work.plan.fitted(0)
        works.append(work)
    return works


def run_one(work: Any, job: Job) -> None:
    """Runs a file as the next mesh of the job and writes what came of it, or notes why not."""
    begin = time.perf_counter()

    def call(points: Any, triangles: Any, size: Any, stop: int, **more: Any) -> Any:
        size = single(points, triangles, size)
        work.slab = job.run(points, triangles, size, stop, **more)
        if work.slab.refused:
            raise work.slab.refused
        return size, work.slab.mesh

    try:
        meshing.run(work, call=call)
        mesh_files.check_losses(work)
        mesh_files.written(work)
    except (Fault, Refused, OSError) as fault:
        work.fault = str(fault)
        work.outputs.drop(work.options.output)
    work.seconds = time.perf_counter() - begin
