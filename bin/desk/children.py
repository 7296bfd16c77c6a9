"""Programs that the desk starts, each in a process group of its own, which ends with it."""
import os
import selectors
import signal
import subprocess
import time

from desk.ends import signals_wait

PIECE = 65536


def _has_ended(child):
    """Whether it has; its number stays taken until it is waited for, so no other group can have it."""
    return os.waitid(os.P_PID, child.pid, os.WEXITED | os.WNOHANG | os.WNOWAIT) is not None


def _signal_group(child, number):
    try:
        os.killpg(child.pid, number)
    except (ProcessLookupError, PermissionError):
        pass


def _end_group(child):
    """Ends the child and its own children: they are asked to, and after a second made to."""
    if not _has_ended(child):
        _signal_group(child, signal.SIGTERM)
        patience = time.monotonic() + 1
        while not _has_ended(child) and time.monotonic() < patience:
            time.sleep(0.01)
    _signal_group(child, signal.SIGKILL)
    child.wait()


class _Talk:
    """Sends a child its input while it takes the child's output."""

    def __init__(self, child, given, take):
        self.child, self.left, self.take = child, memoryview(given), take
        self.ready = selectors.DefaultSelector()
        self.reading = True
        for end in (child.stdin, child.stdout):
            os.set_blocking(end.fileno(), False)
        self.ready.register(child.stdout, selectors.EVENT_READ)
        self.ready.register(child.stdin, selectors.EVENT_WRITE)

    def _send(self):
        try:
            self.left = self.left[os.write(self.child.stdin.fileno(), self.left[:PIECE]) if self.left else 0:]
        except BlockingIOError:
            return
        except BrokenPipeError:
            self.left = self.left[:0]
        if not self.left:
            self.ready.unregister(self.child.stdin)
            self.child.stdin.close()

    def _receive(self):
        """Whether more of the output is wanted."""
        try:
            piece = os.read(self.child.stdout.fileno(), PIECE)
        except BlockingIOError:
            return True
        if not piece:
            self.ready.unregister(self.child.stdout)
            self.reading = False
        return not piece or self.take(piece)

    def _rest(self):
        """What lies in the pipe when the child has ended; children of its own may still hold the other end."""
        with selectors.DefaultSelector() as at_once:
            at_once.register(self.child.stdout, selectors.EVENT_READ)
            while self.reading and at_once.select(0):
                if not self._receive():
                    return

    def until(self, deadline):
        """Whether it ended, by itself or with enough output, before the deadline."""
        while True:
            wait = 0.1 if self.reading else 0.01
            if deadline is not None:
                left = deadline - time.monotonic()
                if left <= 0:
                    return False
                wait = min(wait, left)
            for key, _ in self.ready.select(wait):
                if key.fileobj is self.child.stdin:
                    self._send()
                elif not self._receive():
                    return True
            if _has_ended(self.child):
                self._rest()
                return True


def run(command, given=b"", take=None, limit=None, folder=None, errors=None):
    """Runs a command and hands its output to `take`, piece by piece, until that answers False. The status that it ended with
    (negative for a signal); None where it did not end within `limit` seconds."""
    child = None
    try:
        with signals_wait():
            child = subprocess.Popen(command, stdin=subprocess.PIPE, stdout=subprocess.PIPE, stderr=errors, cwd=folder, start_new_session=True)
        ended = _Talk(child, given, take or (lambda piece: True)).until(None if limit is None else time.monotonic() + limit)
    finally:
        if child is not None:
            with signals_wait():
                _end_group(child)
                child.stdin.close()
                child.stdout.close()
    return child.returncode if ended else None


class Output:
    """A child's output, up to a number of bytes; `enough` is set where it had more."""

    def __init__(self, most):
        self.most, self.text, self.enough = most, bytearray(), False

    def __call__(self, piece):
        self.text += piece
        self.enough = len(self.text) > self.most
        return not self.enough
