"""How a run ends before its time: by Ctrl-C, by SIGTERM or SIGHUP, or when its seconds are over.
The files made so far, METIS and its folder go along."""
import contextlib
import os
import signal
import sys
import threading
import time
import traceback

STOPS = (signal.SIGINT, signal.SIGTERM, signal.SIGHUP)
# seconds that an ended child has to clear its files away, or to finish giving them their names
GRACE = 5.0


class Stopped(BaseException):
    """A signal that ends the command came."""

    def __init__(self, number):
        super().__init__(number)
        self.status = 128 + number


def handle(handler):
    """What the signals that end a run do from now on; nothing changes outside the main thread."""
    if threading.current_thread() is threading.main_thread():
        return {number: signal.signal(number, handler) for number in STOPS}
    return {}


def stop(number, frame):
    handle(signal.SIG_IGN)  # nothing breaks off the clearing away
    raise Stopped(number)


@contextlib.contextmanager
def naming():
    """While files take their names no signal ends the run. Afterwards one ends it without words:
    nothing is left to clear away."""
    handle(signal.SIG_IGN)
    yield
    handle(signal.SIG_DFL)


def run(work, seconds, say):
    """The exit status of the work; 128 and the signal's number where a signal ended it. Calls that
    still run in threads are not waited for."""
    before = handle(stop)
    if before:
        # where it is ignored, no child's status is known
        signal.signal(signal.SIGCHLD, signal.SIG_DFL)
    try:
        return run_within(work, seconds, say) if seconds else work()
    except Stopped as stopped:
        say('stopped; nothing is written', stopped.status)
        leave_threads(stopped.status)
        return stopped.status
    finally:
        for number, handler in before.items():
            signal.signal(number, handler)


def leave_threads(status):
    """Ends the process at once where threads are still at work; they have nothing but memory."""
    if threading.active_count() > 1:
        leave(status)


def leave(status):
    """Ends the process at once, whatever becomes of its last words."""
    try:
        sys.stdout.flush()
        sys.stderr.flush()
    finally:
        os._exit(status)


def run_within(work, seconds, say):
    """The work in a child, which is ended when its time is over."""
    child = os.fork()
    if child == 0:
        run_child(work)
    status = None
    try:
        status = wait(child, seconds)
        if status is None:
            os.kill(child, signal.SIGTERM)
            status = wait(child, GRACE)
            told = status == 128 + signal.SIGTERM
            if status is not None and status >= 0 and not told:
                return status
            end = 'nothing is written' if told else 'what is written is whole'
            return say('it takes over %g s and was ended; %s' % (seconds, end))
        return status if status >= 0 else say('it ended by signal %d' % -status)
    except Stopped:
        os.kill(child, signal.SIGTERM)
        status = wait(child, GRACE)
        raise
    finally:
        if status is None:
            os.kill(child, signal.SIGKILL)
            os.waitpid(child, 0)


def run_child(work):
    """The child's whole life."""
    status = 1
    try:
        status = work()
    except Stopped as stopped:
        status = stopped.status
    except BaseException:
        traceback.print_exc()
    finally:
        leave(status)


def wait(child, seconds):
    """The child's exit status, minus the number of the signal that ended it; None where it still
    runs after so many seconds."""
    end, pause = time.monotonic() + seconds, 0.001
    while True:
        found, status = os.waitpid(child, os.WNOHANG)
        if found:
            return os.waitstatus_to_exitcode(status)
        if time.monotonic() >= end:
            return None
        time.sleep(min(pause, max(0.0, end - time.monotonic())))
        pause = min(2 * pause, 0.02)
