"""Runs other commands such that none of them outlives this one, and lets a signal end this one as it would have without them."""

import contextlib
import os
import signal
import subprocess
import sys

# The signals that ask a command to end.
STOPS = (signal.SIGHUP, signal.SIGINT, signal.SIGTERM)


class Stopped(BaseException):
    """A signal that asks to end came; it is raised so that what was begun is put away."""


def stop(number, _):
    raise Stopped(number)


def ending_well(main, *words):
    """The status of main, which takes words; where a signal asks to end, this ends by that signal once main has put all away."""
    for number in STOPS:
        signal.signal(number, stop)
    try:
        return main(*words)
    except Stopped as stopped:
        number = stopped.args[0]
        signal.signal(number, signal.SIG_DFL)
        os.kill(os.getpid(), number)
        return 128 + number


@contextlib.contextmanager
def begun(words, **how):
    """A command that was begun, in a group of its own, which has ended when this ends."""
    # A signal that came while the command runs but isn't known here yet would leave it running, so signals wait that long.
    before = signal.pthread_sigmask(signal.SIG_BLOCK, STOPS)
    let_through = lambda: signal.pthread_sigmask(signal.SIG_SETMASK, before)
    try:
        ran = subprocess.Popen(words, stdin=subprocess.DEVNULL, start_new_session=True, preexec_fn=let_through, **how)
    except BaseException:
        let_through()
        raise
    try:
        let_through()
        yield ran
    finally:
        if ran.poll() is None:
            end(ran.pid, signal.SIGTERM)
            with contextlib.suppress(subprocess.TimeoutExpired):
                ran.wait(timeout=10)
        end(ran.pid, signal.SIGKILL)
        ran.wait()


def end(group, number):
    with contextlib.suppress(OSError):
        os.killpg(group, number)


def say(who, text):
    print(f"{who}: {text}", file=sys.stderr, flush=True)
