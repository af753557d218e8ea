"""What sedgepick-mesh says: faults, notes and warnings on standard error, lines on standard
output."""
from __future__ import annotations
import sys
from typing import Any
from . import NoLibrary, Refused, answers
from .surfaces import Fault, visible


def say(words: str) -> int:
    """Prints words on standard error; the exit status of a refusal."""
    print('sedgepick-mesh: %s' % visible(words), file=sys.stderr)
    return 1


def show(options: Any, lines: list[str]) -> None:
    """Prints lines on standard output, or on standard error where the mesh goes there; none where
    an object is asked for."""
    if not options.quiet and not options.json:
        answers.show('\n'.join(lines), sys.stderr if options.output == '-' else sys.stdout)


def tell(work: Any, name: str = '') -> None:
    """Prints notes and warnings on standard error."""
    for words in work.surface.notes:
        say('%snote: %s' % (name, words))
    for words in work.warnings:
        say('%swarning: %s' % (name, words))


def refuse(options: Any, words: str, status: int = 1) -> int:
    """Says why nothing is written; the exit status."""
    say('%s: %s' % (options.input, words))
    if options.json:
        found = answers.refusal(status, words, answers.shown_name(options.input))
        answers.show(answers.text_of(found))
    return status


def fault_words(fault: BaseException) -> str:
    """What is said of a fault."""
    if isinstance(fault, (Fault, NoLibrary, Refused, OSError, MemoryError)):
        return str(fault)
    return (
        'a fault of the command itself, %s: %s. Please report it; SEDGEPICK_TRACEBACK=1 shows where'
        % (type(fault).__name__, fault)
    )


def show_progress(done: int, count: int) -> None:
    """Shows how many parts are done, where a person looks on."""
    if sys.stderr.isatty():
        end = '\n' if done == count else ''
        print('\rpart %d of %d' % (done, count), end=end, file=sys.stderr, flush=True)
