"""The two proved programs: built from the sources that stand here, or those of a release; asked, and their replies taken."""
import fcntl
import hashlib
import os
import platform
import re
import shlex
import shutil

from desk import children
from desk.ends import broken, reason

PROGRAMS = ("clause_file", "rulebook_pipe")

# More than the longest clause file has.
LONGEST_REPLY = 1 << 24


def sum_of_file(path):
    total = hashlib.sha256()
    with open(path, "rb") as file:
        for piece in iter(lambda: file.read(1 << 16), b""):
            total.update(piece)
    return total.hexdigest()


def source_files(home):
    """What the programs are proved and built from, as paths within the clone."""
    found = ["crates.txt"]
    crates = os.path.join(home, "crates")
    for crate in os.listdir(crates):
        for part in ("src", "specs", "proofs"):
            for folder, _, names in os.walk(os.path.join(crates, crate, part), onerror=_unreadable):
                found += [os.path.relpath(os.path.join(folder, name), home) for name in names]
    return sorted(found)


def _unreadable(error):
    if not isinstance(error, FileNotFoundError):
        raise error


def list_of_sources(home):
    """As sha256sum prints it: a line a file. Its own sum is the sum of the sources."""
    return "".join(f"{sum_of_file(os.path.join(home, path))}  {path}\n" for path in source_files(home))


def sum_of_sources(home):
    return hashlib.sha256(list_of_sources(home).encode()).hexdigest()


def version(home):
    """The header has it."""
    with open(os.path.join(home, "include", "rulebook.h"), encoding="ascii") as header:
        return re.search(r'#define RULEBOOK_VERSION "([^"]+)"', header.read()).group(1)


def read_built(path):
    """What programs were built from, a line `NAME VALUE` each; nothing where it is not known."""
    try:
        with open(path, encoding="utf-8") as file:
            return dict(line.rstrip("\n").split(" ", 1) for line in file if " " in line)
    except FileNotFoundError:
        return {}


class Programs:
    """The programs of this clone or release, wherever it stands."""

    def __init__(self, home, say):
        self.home, self.say = home, say
        self.released = os.path.exists(os.path.join(home, "BUILT"))
        self.folder = os.path.join(home, *(["libexec"] if self.released else ["target", "bin"]))
        self.record = os.path.join(home, "BUILT") if self.released else os.path.join(home, "target", "desk", "built")
        self.built = None

    def path(self, name):
        return os.path.join(self.folder, name)

    # ---- what they were built from

    def _as_recorded(self, built):
        return all(os.access(self.path(name), os.X_OK) and sum_of_file(self.path(name)) == built.get(name) for name in PROGRAMS)

    def _is_current(self, built):
        return bool(built) and self._as_recorded(built) and (self.released or sum_of_sources(self.home) == built.get("sources"))

    def make_ready(self):
        """Proves and builds what is not built from the sources that stand here; an older program is not used."""
        if self.built is None:
            try:
                built = read_built(self.record)
                self.built = built if self._is_current(built) else self._renew()
            except OSError as error:
                raise broken(f"{error.filename or self.home} cannot be read or written: {reason(error)}") from None

    def _renew(self):
        if self.released:
            raise broken("clause_file or rulebook_pipe is not what this release came with; unpack it anew")
        missing = [name for name in PROGRAMS if not os.path.exists(self.path(name))]
        state = f"the program {missing[0]} is not built" if missing else "the programs are not known to be built from the sources that stand here"
        if not shutil.which("rt"):
            raise broken(f"{state}, and the Rattle toolchain's command rt is not on the PATH")
        folder = os.path.dirname(self.record)
        try:
            os.makedirs(folder, exist_ok=True)
            lock = open(os.path.join(folder, "lock"), "w", encoding="ascii")
        except OSError:
            raise broken(f"{state}, and {folder} cannot be written; one who may write there has them proved by any command that reads a book") from None
        with lock:
            try:
                fcntl.flock(lock, fcntl.LOCK_EX | fcntl.LOCK_NB)
            except BlockingIOError:
                self.say("another command is having the programs proved; waiting for it")
                fcntl.flock(lock, fcntl.LOCK_EX)
            built = read_built(self.record)
            return built if self._is_current(built) else self._prove(state)

    def _prove(self, state):
        """Each by `rt run`, whose lines tell how far it is: it builds only what is proved."""
        self.say(f"{state}: proving and building them; the first time this takes some minutes")
        before, log = sum_of_sources(self.home), os.path.join(os.path.dirname(self.record), "log")
        said = children.Output(1 << 24)
        try:
            proved = all(self._build(name, said) for name in PROGRAMS)
        finally:
            with open(log, "wb") as file:
                file.write(said.text)
        if not proved or sum_of_sources(self.home) != before or not all(os.access(self.path(name), os.X_OK) for name in PROGRAMS):
            why = "the sources changed meanwhile, or a program is missing" if proved else "they are not proved"
            raise broken(f"{why}; target/desk/log has what rt said")
        built = {"version": version(self.home), "sources": before, "kit": self._kit(), **{name: sum_of_file(self.path(name)) for name in PROGRAMS}}
        part = self.record + ".part"
        with open(part, "w", encoding="utf-8") as file:
            file.write("".join(f"{name} {value}\n" for name, value in built.items()))
        os.rename(part, self.record)
        return built

    def _build(self, name, said):
        """Has a program proved, and lays it beside the other; whether that is so. `rt run` runs it too, here on no input. What it says last may be
        of a library, if it stops before the program: so the program has to be new."""
        folder, lines = os.path.join(self.home, "crates", name), _Lines(self.say)
        built = os.path.join(folder, "out", name)
        if os.path.lexists(built):
            os.remove(built)
        children.run(["sh", "-c", "exec rt run 2>&1"], take=lambda piece: (lines(piece), said(piece))[1], folder=folder)
        is_new = os.access(built, os.X_OK)
        if is_new:
            os.makedirs(self.folder, exist_ok=True)
            shutil.copy(built, self.path(name) + ".part")
            os.rename(self.path(name) + ".part", self.path(name))
        return is_new and lines.proved

    def _kit(self):
        said = children.Output(200)
        children.run(["rt", "version"], take=said)
        return bytes(said.text).decode(errors="replace").strip() or "not told"

    def facts(self):
        """What `--version` tells."""
        try:
            built = read_built(self.record)
            current = self._is_current(built)
            if self.released and not current:
                self._renew()
            facts = dict(built) if current else {"version": version(self.home), "sources": sum_of_sources(self.home)}
        except OSError as error:
            raise broken(f"{error.filename or self.home} cannot be read: {reason(error)}") from None
        return facts if current else {**facts, **{name: "not built from these sources" for name in PROGRAMS}}

    # ---- running them

    def _runner(self):
        """Programs are for x86-64. Elsewhere RULEBOOK_RUN names what runs them, or on Arm the toolchain's emulator does."""
        if platform.machine() in ("x86_64", "AMD64"):
            return []
        if os.environ.get("RULEBOOK_RUN"):
            return shlex.split(os.environ["RULEBOOK_RUN"])
        rt = shutil.which("rt")
        kit = rt and os.path.join(os.path.dirname(os.path.dirname(os.path.realpath(rt))), "on", platform.machine(), "toolchain")
        if not kit or not os.path.isdir(kit):
            raise broken("the programs are for x86-64; on this machine the Rattle toolchain runs them, and its command rt is not on the PATH "
                         "(RULEBOOK_RUN can name another emulator)")
        return [f"{kit}/bin/qemu-x86_64", f"{kit}/lib/ld-linux-x86-64.so.2", "--library-path", f"{kit}/lib"]

    def _run(self, name, given):
        """What a program prints. It is the program that was found at the start, whatever ran meanwhile."""
        self.make_ready()
        reply = children.Output(LONGEST_REPLY)
        try:
            if sum_of_file(self.path(name)) != self.built[name]:
                raise broken(f"the program {name} was changed meanwhile; nothing that it says is taken")
            status = children.run(self._runner() + [self.path(name)], given=given, take=reply)
        except OSError as error:
            raise broken(f"the program {name} cannot be run: {reason(error)}") from None
        if status != 0 or reply.enough:
            raise broken(f"the program {name} did not end well (status {status})")
        return bytes(reply.text)

    def ask(self, call, **parts):
        """rulebook_pipe's reply, as it printed it."""
        return self.ask_all([(call, parts)])

    def ask_all(self, requests):
        """The replies to several requests, one behind the other."""
        return self._run("rulebook_pipe", b"".join(_request(call, **parts) for call, parts in requests))

    def clause_file(self, book):
        """clause_file's output, whole: its header says how many lines follow."""
        file = self._run("clause_file", book)
        header = re.match(rb"p cnf [0-9]+ ([0-9]+)\n", file)
        if header and file.count(b"\n") != int(header.group(1)) + 1:
            raise broken("the program clause_file stopped midway")
        return file


def _request(call, number=0, book=b"", text=b"", record=b""):
    return f"{call} {number} {len(book)} {len(text)} {len(record)}\n".encode() + book + text + record


class _Lines:
    """rt's lines on crates, said as they come; `proved` is what it said of the last one."""

    def __init__(self, say):
        self.say, self.rest, self.crate, self.proved = say, b"", "", False

    def __call__(self, piece):
        *lines, self.rest = (self.rest + piece).split(b"\n")
        for line in lines:
            crate = re.match(rb"crate (\S+): ", line)
            if crate:
                self.crate = crate.group(1).decode(errors="replace")
            elif line.startswith(b"logic="):
                self.proved = line.startswith(b"logic=proved ")
                self.say(f"{self.crate} {'proved' if self.proved else 'NOT PROVED'}")
