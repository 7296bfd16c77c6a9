"""A room in which the desk is used, with the examples, inputs and solvers in it; and what is expected of it, counted."""
import contextlib
import hashlib
import os
import platform
import shutil
import signal
import stat
import subprocess
import tempfile
import time

HOME = os.path.dirname(os.path.dirname(os.path.dirname(os.path.realpath(__file__))))
SECONDS = 120
SOLVERS = {"cadical": "cadical", "cryptominisat5": "cryptominisat", "picosat": "picosat", "minisat": "minisat", "clasp": "clasp", "z3": "z3",
           "sat4j": "sat4j default-jre-headless"}
NOBODY = 65534


# ---- counting

class Enough(Exception):
    pass


class Count:
    good = bad = 0
    stop = False


def compare(what, expected, got):
    if expected == got:
        Count.good += 1
        return
    Count.bad += 1
    print(f"{what}\n  expected: {expected}\n  got:      {got}", flush=True)
    if Count.stop:
        raise Enough


def holds(what, condition):
    compare(what, True, bool(condition))


class AnyLast(str):
    """Equal to every sentence."""

    def __eq__(self, other):
        return True

    def __ne__(self, other):
        return False

    __hash__ = str.__hash__


ORDER_LAST = AnyLast("any sentence")
ANY_HELP = AnyLast("any line")


# ---- what lies in a room

INPUTS = {
    "nothing": b"", "zeros": bytes(1000000), "shortened": None, "unknown": bytes([1, 1, 7]), "misplaced": bytes([2, 4, 0, 4, 0, 4, 0, 5]),
    "range": bytes([1, 7, 5]), "behind": bytes([5, 5]), "many": bytes([1, 0] * 17 + [5]), "short": bytes([1, 0, 0]), "unordered": bytes([0, 1, 2]),
    "ordered": bytes([0, 0, 1]), "doubling.ranks": bytes([0, 2, 0]), "variable": bytes([4, 0, 5]), "ackermann.ranks": bytes([0, 1, 2]),
    "a_3_4": bytes([3, 2, 3, 1, 3, 1, 3, 1, 3, 0, 3, 1, 3, 1, 3, 1, 3, 1, 3, 0, 5]),
    "good": b"s SATISFIABLE\nv 1 -3 0\n", "lie": b"s SATISFIABLE\nv -1 3 0\n", "unclosed": b"s SATISFIABLE\nv 1 -3\n", "unsure": b"s UNKNOWN\n",
    "long": b"x" * 65537, "chatty": b"c so it goes\n" * 6000 + b"s SATISFIABLE\nv 1 -3 0\n", "not_a_program": b"",
}
with open(os.path.join(HOME, "examples", "dosing.book"), "rb") as dosing:
    INPUTS["shortened"] = dosing.read()[:20]

# Solvers. `everywhere` and `in_place` rewrite what they find to a book without rules, or to ranks of their liking.
PROGRAMS = {
    "garbage": "echo 'Segmentation fault (not really)'\n",
    "silent": "exit 10\n",
    "hangs": "sleep 100\n",
    "with_children": "sleep 98 &\nsleep 98 &\nwait\n",
    "stubborn": "trap '' TERM\nwhile :; do sleep 1; done\n",
    "leaves_children": "sleep 97 &\nprintf 's SATISFIABLE\\nv 1 -3 0\\n'\n",
    "endless": "exec yes 'v 1'\n",
    "endless_comments": "exec yes 'c and so on'\n",
    "lies": "printf 's SATISFIABLE\\nv -1 3 0\\n'\n",
    "refuses": "echo 's UNSATISFIABLE'\n",
    "tells": "printf 's SATISFIABLE\\nv 1 -3 0\\n'\n",
    "chats": "yes 'c so it goes' | head -c 70000\necho\nprintf 's SATISFIABLE\\nv 1 -3 0\\n'\n",
    "two_words": "[ \"$1\" = -q ] && [ \"$2\" = 'b c' ] && printf 's SATISFIABLE\\nv 1 -3 0\\n'\n",
    "in_place": "cd \"$(dirname \"$1\")\"\nfor each in * ../*; do [ -f \"$each\" ] && printf '\\001\\001\\001\\001\\001\\000\\005' >\"$each\"; done\n"
                "for each in book book.book; do printf '\\001\\001\\001\\001\\001\\000\\005' >$each; done\nprintf 's SATISFIABLE\\nv -1 3 0\\n'\n",
    "rewrites_book": "printf '\\005' >\"$BOOK\"\nprintf 's SATISFIABLE\\nv 1 -3 0\\n'\n",
    "locks_its_folder": "mkdir a a/b && touch a/b/c && chmod 000 a/b a\nprintf 's SATISFIABLE\\nv 1 -3 0\\n'\n",
    "lists": "ls -A >\"$LISTED\"; pwd >>\"$LISTED\"; ls -ld . >>\"$LISTED\"\nprintf 's SATISFIABLE\\nv 1 -3 0\\n'\n",
    # a pipe that holds all of it, and an end at once: the most is read after the end
    "at_the_last_moment": "exec python3 -c 'import fcntl, os\nfcntl.fcntl(1, 1031, 1 << 20)\n"
                          "os.write(1, b\"c so it goes\\n\" * 20000 + b\"s SATISFIABLE\\nv 1 -3 0\\n\")\nos._exit(10)'\n",
    "late": "sleep 0.5\nprintf 's SATISFIABLE\\nv 1 -3 0\\n'\nsleep 0.5\n",
}


# ---- sentences of more than one section

THIRTEEN = "it needs one s line, and after SATISFIABLE v lines that a 0 closes; another solver may do"
FOURTEEN = ("the solver says that no ranks clear the book, or that it cannot tell; that is its claim and proves nothing: the book may still come to rest, "
            "but not because of ranks; change its rules, or ask another solver")
SEVEN = "there is not one rank for each symbol: a file of ranks has one byte for each symbol of the book, and nothing else"
ELEVEN = "the record is malformed, or has more than 256 nodes: a record is one term of the book's symbols, without variables, and then the byte 05"
TWELVE = "the solver's answer is longer than 65,536 bytes: have it print its s and v lines only"
HOW = "(rulebook help says how)"
TIME_UP = "{} gave no answer within 1 seconds; --limit gives it more"


# ---- running the desk

class Ran:
    def __init__(self, status, out, err):
        self.status, self.out, self.err = status, out.decode(errors="replace"), err.decode(errors="replace")
        self.first = self.out.split("\n")[0]
        self.sentences = [line.removeprefix("rulebook: ") for line in self.err.splitlines()]
        self.last = self.sentences[-1] if self.sentences else ""


def end_group(child):
    with contextlib.suppress(ProcessLookupError):
        os.killpg(child.pid, signal.SIGKILL)


def emulator():
    """What runs the programs where no rt is on the PATH: nothing on x86-64."""
    if platform.machine() in ("x86_64", "AMD64"):
        return ""
    kit = os.path.join(os.path.dirname(os.path.dirname(os.path.realpath(shutil.which("rt")))), "on", platform.machine(), "toolchain")
    return f"{kit}/bin/qemu-x86_64 {kit}/lib/ld-linux-x86-64.so.2 --library-path {kit}/lib"


def as_nobody():
    os.setgroups([])
    os.setgid(NOBODY)
    os.setuid(NOBODY)


class Room:
    """A folder with the examples in it, in which the desk is used, and one for temporary files, which must stay empty."""

    def __init__(self, home=None):
        self.outer = tempfile.mkdtemp(prefix="desk-test.")
        os.chmod(self.outer, 0o755)
        self.folder, self.temporary = os.path.join(self.outer, "room"), os.path.join(self.outer, "tmp")
        os.mkdir(self.folder)
        os.mkdir(self.temporary)
        os.chmod(self.temporary, 0o1777)
        self.home = home or Room.tried
        for name in os.listdir(os.path.join(HOME, "examples")):
            if name.endswith((".book", ".record")):
                shutil.copy(os.path.join(HOME, "examples", name), self.folder)
        for name, data in INPUTS.items():
            self.write(name, data)
        for name, lines in PROGRAMS.items():
            self.program(name, lines)

    def __enter__(self):
        return self

    def __exit__(self, *_):
        subprocess.run(["chmod", "-R", "u+rwX", self.outer], check=False)
        shutil.rmtree(self.outer, ignore_errors=True)

    def at(self, name):
        return os.path.join(self.folder, name)

    def write(self, name, data):
        with open(self.at(name), "wb") as file:
            file.write(data)

    def read(self, name):
        with open(self.at(name), "rb") as file:
            return file.read()

    def program(self, name, lines):
        self.write(name, b"#!/bin/sh\n" + lines.encode())
        os.chmod(self.at(name), 0o755)

    def tools(self):
        """A PATH with Python, where every user can read it, and next to nothing else."""
        folder = os.path.join(self.outer, "tools")
        if not os.path.exists(folder):
            os.mkdir(folder)
            for tool in ("python3", "env", "cp", "cat", "sleep"):
                os.symlink(os.path.realpath(shutil.which(tool, path="/usr/bin:/bin:/usr/local/bin") or shutil.which(tool)), os.path.join(folder, tool))
        return folder

    def there(self):
        """Every file of the room: what it is and what it holds."""
        found = {}
        for inside, folders, names in os.walk(self.folder):
            for name in folders + names:
                path = os.path.join(inside, name)
                seen = os.lstat(path)
                held = ""
                if stat.S_ISREG(seen.st_mode):
                    with open(path, "rb") as file:
                        held = hashlib.sha256(file.read()).hexdigest()
                elif stat.S_ISLNK(seen.st_mode):
                    held = os.readlink(path)
                found[os.path.relpath(path, self.folder)] = (stat.S_IFMT(seen.st_mode), held)
        return found

    def words(self, words):
        return [os.path.join(self.home, "bin", "rulebook"), *words]

    def environment(self, **more):
        return {**os.environ, "TMPDIR": self.temporary, **more}

    def start(self, *words, **more):
        settings = {"cwd": self.folder, "env": self.environment(), "stdin": subprocess.DEVNULL, "stdout": subprocess.PIPE, "stderr": subprocess.PIPE,
                    "start_new_session": True}
        return subprocess.Popen(self.words(words), **{**settings, **more})

    def finish(self, child, given=None, seconds=SECONDS):
        try:
            out, err = child.communicate(given, timeout=seconds)
            return Ran(child.returncode, out or b"", err or b"")
        except subprocess.TimeoutExpired:
            end_group(child)
            child.communicate()
            return Ran("it did not end", b"", b"")

    def use(self, *words, given=None, seconds=SECONDS, **more):
        if given is not None:
            more["stdin"] = subprocess.PIPE
        return self.finish(self.start(*words, **more), given, seconds)

    def tidy(self, what):
        """Waits a moment for what was killed, and has the folder for temporary files be empty."""
        for _ in range(40):
            if not os.listdir(self.temporary):
                break
            time.sleep(0.05)
        compare(f"{what}: temporary files left", [], os.listdir(self.temporary))

    def expect(self, status, first, last, *words, new=(), gone=(), **more):
        """A call with its status, first line and last sentence; only the files named here come or go."""
        before = self.there()
        ran = self.use(*words, **more)
        what = f"rulebook {' '.join(words)}"
        compare(what, (status, first, last), (ran.status, ran.first, ran.last if last is not None else None))
        after = self.there()
        changed = {name for name in {**before, **after} if before.get(name) != after.get(name)}
        compare(f"{what}: files that came, changed or went", sorted({*new, *gone}), sorted(changed))
        self.tidy(what)
        return ran

    def clears(self, ranks, *words, **more):
        """Cleared, and the file then holds ranks that clear the book; it is removed."""
        ran = self.expect(0, "cleared", ORDER_LAST, *words, new=(ranks, ranks + ".of"), **more)
        compare(f"rulebook {' '.join(words)}: its ranks", (0, "cleared"), self.verdict(words[1], ranks))
        for name in (ranks, ranks + ".of"):
            with contextlib.suppress(OSError):
                os.unlink(self.at(name))
        return ran

    def verdict(self, book, ranks):
        ran = self.use("check", book, ranks)
        return ran.status, ran.first


# ---- processes

def running(words):
    """Processes with these words that belong to no other test's room: their numbers."""
    found = []
    for number in filter(str.isdigit, os.listdir("/proc")):
        with contextlib.suppress(OSError), open(f"/proc/{number}/cmdline", "rb") as file:
            if file.read().rstrip(b"\0").replace(b"\0", b" ").decode(errors="replace") == words:
                with open(f"/proc/{number}/environ", "rb") as around:
                    if Room.mark in around.read():
                        found.append(number)
    return " ".join(found)


def until(condition, seconds=30):
    end = time.monotonic() + seconds
    while not condition() and time.monotonic() < end:
        time.sleep(0.05)
    return condition()
