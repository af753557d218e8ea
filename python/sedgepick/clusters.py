"""Parts and files run on a Dask cluster, whose workers have this package and the same library.
`distributed` is imported only where a cluster is asked for.

What is sent is a part as it goes to the library, or a surface with its plan; what comes back is
what the same call gives here, so that the mesh is the same bit for bit. Who can reach the scheduler
can run code on its workers: that is Dask's nature, and such a cluster belongs on a network of one's
own."""
from __future__ import annotations
import logging
import warnings
from functools import partial
from typing import Any, Callable, Iterator, Sequence
from . import library
from .front import Refused
from .surfaces import Fault

CONNECT_SECONDS = 30.0  # Dask imports much before it answers


def describe_library() -> tuple[str, int, str]:
    """Which library this machine has: its version, its interface and the SHA-256 of its proved
    archive."""
    return library.version(), library.abi(), library.build().split(',')[0]


class Cluster:
    """A connection to a scheduler; with `with` it is closed afterwards.

        with Cluster('tcp://10.0.0.5:8786') as cluster:
            mesh = sedgepick.mesh(points, triangles, cluster=cluster)
    """

    def __init__(self, address: str) -> None:
        self.address = address
        self.client: Any = None

    def __enter__(self) -> Cluster:
        try:
            import distributed
        except ImportError:
            raise Fault(
                '--cluster needs the Python module distributed: install it (Debian: apt install '
                'python3-distributed; elsewhere: pip install distributed)'
            ) from None
        # what is wrong is told by a Fault
        logging.getLogger('distributed').setLevel(logging.CRITICAL)
        try:
            self.client = distributed.Client(
                self.address, timeout=CONNECT_SECONDS, set_as_default=False
            )
        except (OSError, ValueError, TypeError) as error:
            raise Fault('no Dask scheduler answers at %s: %s' % (self.address, error)) from None
        try:
            self.check_workers()
        except BaseException:
            self.client.close()
            raise
        return self

    def __exit__(self, *fault: Any) -> None:
        self.client.close()

    def check_workers(self) -> None:
        """That there are workers, and that each has the library that is here."""
        own, found = describe_library(), self.client.run(describe_library, on_error='return')
        if not found:
            raise Fault('the cluster at %s has no workers: start some' % self.address)
        for worker, other in sorted(found.items()):
            if isinstance(other, BaseException):
                raise Fault(
                    'the worker %s cannot run sedgepick, %s: %s. Install it there'
                    % (worker, type(other).__name__, other)
                )
            if tuple(other) != own:
                raise Fault(
                    'the worker %s has sedgepick %s with interface %s (%s), and here is %s with '
                    'interface %s (%s): install one build on all'
                    % (worker, *other, *own)
                )

    def submit(self, task: Callable, items: Sequence) -> list[Any]:
        """A future for each item, in order; all are sent at once."""
        with warnings.catch_warnings():
            warnings.simplefilter('ignore')  # on items that Dask finds large
            return [self.client.submit(task, item, pure=False) for item in items]

    def result(self, future: Any) -> Any:
        """What the task gave; what the task raised, or a Fault where the cluster fails."""
        try:
            return future.result()
        except (Fault, Refused, library.NoLibrary, MemoryError):
            raise
        except Exception as error:
            raise Fault(
                'the cluster at %s fails, %s: %s' % (self.address, type(error).__name__, error)
            ) from None

    def each(
        self, task: Callable, items: Sequence, progress: Callable[[int, int], None] | None = None
    ) -> list[Any]:
        """What the task gives for each item, in order."""
        futures, found = self.submit(task, items), []
        try:
            for future in futures:
                found.append(self.result(future))
                if progress and len(items) > 1:
                    progress(len(found), len(items))
            return found
        # a part is refused, or the command is ended: those that have not begun never do
        except BaseException:
            self.client.cancel(futures)
            raise

    def in_turn(self, task: Callable, items: Sequence) -> Iterator[Callable[[], Any]]:
        """For each item, in order, a function that waits for what the task gives, or raises; all
        are sent at once."""
        for future in self.submit(task, items):
            yield partial(self.result, future)
