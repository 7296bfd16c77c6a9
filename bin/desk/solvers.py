"""SAT solvers: how each is called, and how what it prints becomes the s and v lines of an answer. None is trusted.

    solvers.py NAME FILE..    prints the answer of one of them to a clause file, or writes FILE.NAME beside each of several
"""
import os
import shlex
import shutil
import sys
import tempfile
from subprocess import DEVNULL
from typing import Callable, NamedTuple

if __name__ == "__main__":
    sys.dont_write_bytecode = True
    sys.path.insert(0, os.path.dirname(os.path.dirname(os.path.realpath(__file__))))

from desk import children, files  # noqa: E402
from desk.ends import TIMED_OUT, End, broken, reason, signals_wait  # noqa: E402

ANSWER_MOST = 65536


# ---- from what a solver prints to an answer

class Printed:
    """What a solver prints, without its c lines, which an answer passes over: at most one byte more than an answer may have."""

    def __init__(self):
        self.text, self.at_start, self.comment = bytearray(), True, False

    def __call__(self, piece):
        start = 0
        while start < len(piece):
            end = piece.find(b"\n", start) + 1 or len(piece)
            if self.at_start:
                self.comment = piece[start] == ord("c")
            if not self.comment:
                self.text += piece[start:end]
            self.at_start = piece[end - 1] == ord("\n")
            start = end
        del self.text[ANSWER_MOST + 1:]
        return len(self.text) <= ANSWER_MOST


def as_printed(text):
    return text


def verdict_first(text):
    """Some print the values first."""
    lines = text.removesuffix(b"\n").split(b"\n")
    return b"\n".join(sorted(lines, key=lambda line: not line.startswith(b"s "))) + b"\n"


def closed(text):
    """Some leave out the closing 0."""
    return text.rstrip(b"\n") + (b" 0\n" if b"\nv" in text else b"\nv 0\n") if text.startswith(b"s SATISFIABLE\n") else text


def of_result(text):
    """minisat writes a file of a form of its own."""
    verdict, _, values = text.partition(b"\n")
    named = {b"SAT": b"s SATISFIABLE\n", b"UNSAT": b"s UNSATISFIABLE\n", b"INDET": b"s UNKNOWN\n"}.get(verdict, text)
    return named + (b"v " + values if verdict == b"SAT" else b"")


# ---- the table

class Solver(NamedTuple):
    package: str = ""
    words: tuple = ()
    mend: Callable = as_printed
    tells_version: bool = True


SOLVERS = {
    "cadical": Solver("cadical", ("-q",)),
    "cryptominisat5": Solver("cryptominisat", ("--verb", "0")),
    "picosat": Solver("picosat"),
    "minisat": Solver("minisat", ("-verb=0",), of_result, tells_version=False),
    "clasp": Solver("clasp", ("--verbose=0",), verdict_first),
    "z3": Solver("z3", ("-dimacs",), closed),
    "sat4j": Solver("sat4j default-jre-headless", tells_version=False),
}
UNKNOWN = Solver(tells_version=False)


class Found(NamedTuple):
    """A solver that is installed: its name, the words that start it, and its row of the table."""

    name: str
    start: tuple
    row: Solver


def _program(words):
    """The words that start a program, or None where there is none of that name. Debian's sat4j is a Java archive."""
    path = shutil.which(words[0])
    if path is None:
        return None
    path = os.path.abspath(path)
    try:
        with open(path, "rb") as file:
            archive = file.read(2) == b"PK"
    except OSError:
        archive = False
    return (*(["java", "-jar"] if archive else []), path, *words[1:])


def split(given):
    """--solver's value: a program, perhaps with words of its own."""
    try:
        words = shlex.split(given)
    except ValueError:
        words = []
    if not words:
        raise broken("--solver is a program, perhaps with words of its own, as 'cadical --sat'")
    return words


def find(given, install, say):
    """The solver asked for, or the first of the table that is installed; where there is none, one is installed if that may be done."""
    asked = [split(given)] if given else [[name] for name in SOLVERS]
    for once_more in (False, True):
        for words in asked:
            start = _program(words)
            if start and (start[0] != "java" or shutil.which("java")):
                name = os.path.basename(words[0])
                return Found(name, start, SOLVERS.get(name, UNKNOWN))
        package = SOLVERS.get(asked[0][0], UNKNOWN).package
        if not package:
            raise broken(f"there is no program {asked[0][0]}")
        if once_more or not install(package, say):
            break
    raise broken(f"{asked[0][0] if given else 'a SAT solver'} is not installed; on Debian: apt-get install {package}")


def install_by_apt(package, say):
    """Whether it was tried: only root may."""
    if os.geteuid() != 0 or not shutil.which("apt-get"):
        return False
    say(f"installing {package} by apt-get")
    for command in (["update", "-q"], ["install", "-y", "-q", *package.split()]):
        children.run(["apt-get", *command], limit=600, errors=DEVNULL)
    return True


# ---- asking one

def _remove(folder):
    """Removes a solver's folder, whatever it made of it."""
    for inside, folders, _ in os.walk(folder):
        for name in folders:
            path = os.path.join(inside, name)
            if not os.path.islink(path):
                os.chmod(path, 0o700)
    shutil.rmtree(folder, ignore_errors=True)


class Answer(NamedTuple):
    text: bytes
    status: int


def _folder_with(cnf):
    """A folder that holds the clause file, and is the solver's to write in."""
    folder = None
    try:
        with signals_wait():
            folder = tempfile.mkdtemp(prefix="rulebook.")
        with open(os.path.join(folder, "book.cnf"), "xb") as file:
            file.write(cnf)
    except BaseException as error:
        if folder:
            _remove(folder)
        if isinstance(error, OSError):
            raise broken(f"the clause file cannot be written for the solver: {reason(error)}") from None
        raise
    return folder


def solve(found, cnf, limit):
    """The solver's answer to a clause file, which alone lies in the folder that it runs in."""
    folder = _folder_with(cnf)
    try:
        file, result = os.path.join(folder, "book.cnf"), os.path.join(folder, "result")
        printed = Printed()
        words = [*found.start, *found.row.words, file, *([result] if found.row.mend is of_result else [])]
        status = children.run(words, take=printed, limit=limit, folder=folder, errors=DEVNULL)
        if status is None:
            raise End(TIMED_OUT, f"{found.name} gave no answer within {limit} seconds; --limit gives it more")
        text = files.read_left_behind(result) if found.row.mend is of_result else bytes(printed.text)
        return Answer(found.row.mend(text), status)
    except OSError as error:
        raise broken(f"{found.name} cannot be run: {reason(error)}") from None
    finally:
        with signals_wait():
            _remove(folder)


def version(found):
    """What the solver says of itself, in one line."""
    if not found.row.tells_version:
        return ""
    said = children.Output(4096)
    try:
        children.run([*found.start, "--version"], take=said, limit=10, errors=DEVNULL)
    except OSError:
        return ""
    lines = bytes(said.text).decode(errors="replace").splitlines()
    return lines[0].removeprefix("c ").strip()[:100] if lines else ""


if __name__ == "__main__":
    asked, paths = find(sys.argv[1], lambda *_: False, print), sys.argv[2:]
    for path in paths:
        with open(path, "rb") as clause_file:
            answered = solve(asked, clause_file.read(), 600)
        with open(f"{path}.{sys.argv[1]}", "wb") if len(paths) > 1 else sys.stdout.buffer as written:
            written.write(answered.text)
