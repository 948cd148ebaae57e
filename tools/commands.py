"""Commands under way that end with all that they have started, whatever ends them."""

import contextlib
import os
import signal
import subprocess
import time

STOPPING = (signal.SIGINT, signal.SIGTERM, signal.SIGHUP)
SECONDS_TO_TIDY_UP = 1
INTERRUPTION = 130  # the exit status behind an interrupt


def stop_as_by_an_interrupt():
    """Lets whatever asks this process to stop be a KeyboardInterrupt; what is ignored stays so."""
    for stopping in STOPPING:
        if signal.getsignal(stopping) is not signal.SIG_IGN:
            signal.signal(stopping, signal.default_int_handler)


def end(child):
    """Ends a command that leads a process group, with all of it; asks it first, so that it can tidy up."""
    if child.returncode is not None:
        return
    for stopping in STOPPING:
        signal.signal(stopping, signal.SIG_IGN)  # nothing stops the ending
    os.kill(child.pid, signal.SIGINT)
    for surely in (signal.SIGTERM, signal.SIGKILL):  # what a shell runs beside itself ignores an interrupt
        time.sleep(SECONDS_TO_TIDY_UP)
        os.killpg(child.pid, surely)
    child.wait()


@contextlib.contextmanager
def held_back():
    """Lets what asks this process to stop wait for the block's end; what is ignored stays so."""
    asked, before = [], {stopping: signal.getsignal(stopping) for stopping in STOPPING}
    for stopping, handler in before.items():
        if handler is not signal.SIG_IGN:
            signal.signal(stopping, lambda number, _frame: asked.append(number))
    try:
        yield
    finally:
        for stopping, handler in before.items():
            signal.signal(stopping, handler)
    if asked:
        signal.raise_signal(asked[0])


@contextlib.contextmanager
def under_way(words, **how):
    """A command, started as the leader of a process group; the block's end waits for that of the command.

    Where the block is left by an exception the command is ended. An interrupt never comes between its start and the block:
    what has started would go on, and none would know of it.
    """
    child = None
    try:
        with held_back():
            child = subprocess.Popen(words, stdin=subprocess.DEVNULL, start_new_session=True, **how)
        yield child
        child.wait()
    except BaseException:
        if child:
            end(child)
        raise
