"""How a command can end: its status and its sentence, or a signal."""
import contextlib
import os
import signal

DONE, REFUSED, MISUSED, SPENT, TOO_LARGE, TIMED_OUT = range(6)


class End(Exception):
    """The command ends here, with this status; a sentence says why."""

    def __init__(self, status, sentence=None):
        super().__init__(sentence)
        self.status = status
        self.sentence = sentence


class Stopped(BaseException):
    """A signal asks the command to stop."""

    def __init__(self, number):
        super().__init__(number)
        self.number = number


def broken(sentence):
    """A file cannot be read or written, or a program is missing."""
    return End(MISUSED, sentence)


def reason(error):
    """An operating system's error in its own words."""
    return (error.strerror or str(error)).lower()


# ---- signals

SIGNALS = (signal.SIGINT, signal.SIGTERM, signal.SIGHUP)
_held, _pending = 0, None


def _on_signal(number, _frame):
    global _pending
    for each in SIGNALS:
        signal.signal(each, signal.SIG_IGN)
    if _held:
        _pending = number
    else:
        raise Stopped(number)


def heed_signals():
    """A signal ends the command by way of its `finally` clauses. One that is ignored from the start (nohup) stays ignored."""
    for each in SIGNALS:
        if signal.getsignal(each) != signal.SIG_IGN:
            signal.signal(each, _on_signal)


@contextlib.contextmanager
def signals_wait():
    """For making a thing that must be removed, and for removing it: a signal is heeded at the end."""
    global _held
    _held += 1
    try:
        yield
    finally:
        _held -= 1
        if _pending is not None and not _held:
            raise Stopped(_pending)


def die_of(number):
    """Ends as a program does that heeds no signals, so that a caller's shell sees it."""
    signal.signal(number, signal.SIG_DFL)
    os.kill(os.getpid(), number)
