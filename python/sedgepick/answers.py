"""The objects that --json prints: their schema's version, the one of a refusal, and how they are
shown. Needs neither numpy nor meshio nor the library."""
from __future__ import annotations
import json
import os
import sys
from typing import Any
from .library import VERSION

SCHEMA = 1  # grows where a key changes its meaning or goes; a key more leaves it


def refusal(status: int, words: str, name: str | None = None) -> dict[str, Any]:
    """Where nothing is written: the exit status, and why."""
    return {
        'schema': SCHEMA, 'status': status, 'words': words, 'input': {'name': name},
        'versions': {'sedgepick': VERSION},
    }


def shown_name(path: str) -> str:
    """The name under which a file that is read is told of."""
    return 'standard input' if path == '-' else os.path.basename(path)


def several(status: int, found: list[dict[str, Any]], **more: Any) -> dict[str, Any]:
    """Of a batch or a job: its status, and the object of each file in order."""
    return {
        'schema': SCHEMA, 'status': status,
        'words': '%d of %d written' % (sum(own['status'] in (0, 3) for own in found), len(found)),
        **more, 'files': found, 'versions': {'sedgepick': VERSION},
    }


def text_of(found: dict[str, Any]) -> str:
    return json.dumps(found, indent=1, allow_nan=False) + '\n'


def show(words: str, stream: Any = None) -> None:
    """Words on standard output; the files are there also where nobody reads them."""
    try:
        print(
            words, file=stream or sys.stdout, flush=True, end='' if words.endswith('\n') else '\n'
        )
    except BrokenPipeError:
        os.dup2(os.open(os.devnull, os.O_WRONLY), sys.stdout.fileno())
