"""Programs that are proved first, programs of a release, programs that fail; and other users."""
import hashlib
import os
import shutil

from at_the_desk.room import ORDER_LAST, PROGRAMS, AnyLast, Room, as_nobody, compare, emulator, holds


def copy_desk(to):
    shutil.copytree(os.path.join(Room.tried, "bin"), os.path.join(to, "bin"))
    shutil.copytree(os.path.join(Room.tried, "include"), os.path.join(to, "include"))


def make_release(room, **programs):
    """A release whose programs are these scripts; the proved ones where none is given."""
    home = os.path.join(room.outer, "release")
    shutil.rmtree(home, ignore_errors=True)
    os.makedirs(os.path.join(home, "libexec"))
    copy_desk(home)
    lines = ["version 0", "sources 0"]
    for name in ("clause_file", "rulebook_pipe"):
        path = os.path.join(home, "libexec", name)
        if name in programs:
            with open(path, "w", encoding="utf-8") as file:
                file.write("#!/bin/sh\n" + programs[name])
        else:
            shutil.copy(os.path.join(Room.tried, "target", "bin", name), path)
        os.chmod(path, 0o755)
        with open(path, "rb") as file:
            lines.append(f"{name} {hashlib.sha256(file.read()).hexdigest()}")
    with open(os.path.join(home, "BUILT"), "w", encoding="utf-8") as file:
        file.write("\n".join(lines) + "\n")
    return home


def replies():
    """Programs that stop midway, or say what no proved program says."""
    with Room() as room:
        scripts = {"env": room.environment(RULEBOOK_RUN="/usr/bin/env")}
        for what, line in (("nothing", ""), ("half a line", "printf cleared"), ("two replies", "echo cleared; echo cleared"),
                           ("another word", "echo cleared indeed"), ("a refusal and more", "echo refused 8 at 0 or not"),
                           ("a failure", "echo cleared; exit 1"), ("a crash", "echo cleared; kill -SEGV $$")):
            room.home = make_release(room, rulebook_pipe=f"cat >/dev/null\n{line}\n")
            ran = room.use("check", "addition.book", "ordered", **scripts)
            compare(f"a program that prints {what}", (2, ""), (ran.status, ran.out))
        room.home = make_release(room, rulebook_pipe='read -r head\ncat >/dev/null\n'
                                 'case $head in c*) echo refused 8 at 99 ;; *) printf "symbols\\nrules 0\\n" ;; esac\n')
        room.expect(2, "", "a fault of the desk itself: IndexError('list index out of range')", "check", "addition.book", "ordered", **scripts)
        room.home = make_release(room, rulebook_pipe="cat >/dev/null\necho cut off\n")
        room.expect(2, "", "the program did not get all that it was sent", "check", "addition.book", "ordered", **scripts)
        room.home = make_release(room, clause_file="cat >/dev/null; printf 'p cnf 12 21\\n-3 1 0\\n'\n")
        room.expect(2, "", "the program clause_file stopped midway", "clauses", "addition.book", **scripts)
        room.expect(2, "", "the program clause_file stopped midway", "clear", "addition.book", "--solver", "./tells", **scripts)
        proved = f"{emulator()} {os.path.join(Room.tried, 'target', 'bin', 'rulebook_pipe')}"
        room.home = make_release(room, rulebook_pipe='read -r head\ncase $head in a*) cat >/dev/null; printf "cleared\\nranks 0 1 2\\n" ;;\n'
                                 f'*) {{ printf "%s\\n" "$head"; cat; }} | {proved} ;;\nesac\n')
        kept = "the ranks were spoilt on the way from the answer; nothing was written"
        room.expect(2, "", kept, "answer", "one_rule.book", "good", **scripts)
        room.expect(2, "", kept, "answer", "-", "good", given=room.read("one_rule.book"), **scripts)
        room.home = make_release(room, rulebook_pipe='read -r head\ncase $head in n*) cat >/dev/null; echo at rest; echo at rest ;;\n'
                                 f'*) {{ printf "%s\\n" "$head"; cat; }} | {proved} ;;\nesac\n')
        room.expect(2, "", "the program's replies do not agree: a step was made, and the next question has none",
                    "run", "addition.book", "ordered", "addition.record", "--trace", **scripts)
        room.home = make_release(room, rulebook_pipe="dd bs=1 count=3 >/dev/null 2>&1; echo cleared\n")
        room.expect(0, "cleared", ORDER_LAST, "check", "addition.book", "ordered", **scripts)


def releases():
    with Room() as room:
        emulated = {"env": room.environment(PATH=room.tools(), RULEBOOK_RUN=emulator())}
        room.home = make_release(room)
        room.expect(0, "symbols f0/0 f1/1 f2/2", "", "show", "addition.book", **emulated)
        ran = room.expect(0, "rulebook 0", "", "--version", **emulated)
        holds("a release says what it was built from", "sources 0" in ran.out)
        shutil.copy(os.path.join(Room.tried, "target", "bin", "clause_file"), os.path.join(room.home, "libexec", "rulebook_pipe"))
        changed = "clause_file or rulebook_pipe is not what this release came with; unpack it anew"
        room.expect(2, "", changed, "show", "addition.book", **emulated)
        room.expect(2, "", changed, "--version", **emulated)
        room.home = make_release(room)
        room.program("rewrites_program", "printf '#!/bin/sh\\ncat >/dev/null\\necho cleared\\necho ranks 0 1 2\\n' >\"$PIPE\"\n" + PROGRAMS["lies"])
        room.expect(2, "", "the program rulebook_pipe was changed meanwhile; nothing that it says is taken",
                    "clear", "one_rule.book", "--solver", "./rewrites_program",
                    env=room.environment(RULEBOOK_RUN=emulator(), PIPE=os.path.join(room.home, "libexec", "rulebook_pipe")))


STUB = """\
name=${{PWD##*/}}
echo "$1 $name" >>"{calls}"
[ "$1" = version ] && echo stub && exit 0
mkdir -p out && cp "{programs}/$name" out/
echo 'crate reply: modules loaded=1 checked=0'
echo 'logic=proved functions=1'
[ {stops} = no ] || {{ rm -f out/$name; exit 1; }}
echo "crate $name: modules loaded=0 checked=1"
[ $name = rulebook_pipe ] && echo 'logic={verdict}' && exit {status}
echo 'logic=proved functions=1'
"""


class Clone:
    """A small clone with a command rt that notes its calls; its programs are copies of the proved ones."""

    def __init__(self, room):
        self.home, self.calls = os.path.join(room.outer, "clone"), os.path.join(room.outer, "calls")
        self.room = room
        os.makedirs(os.path.join(self.home, "crates", "one", "src"))
        for program in ("clause_file", "rulebook_pipe"):
            os.mkdir(os.path.join(self.home, "crates", program))
        os.makedirs(os.path.join(self.home, "target", "bin"))
        os.mkdir(os.path.join(room.outer, "kit"))
        copy_desk(self.home)
        self.source("fn main() {}\n")
        with open(os.path.join(self.home, "crates.txt"), "w", encoding="utf-8") as file:
            file.write("one:\n")
        room.home = self.home

    def source(self, text):
        with open(os.path.join(self.home, "crates", "one", "src", "main.rt"), "w", encoding="utf-8") as file:
            file.write(text)
        # older than every program, as an unpacked archive's files are
        os.utime(os.path.join(self.home, "crates", "one", "src", "main.rt"), (1, 1))

    def rt(self, verdict="proved functions=1", status=0, stops="no"):
        path = os.path.join(self.room.outer, "kit", "rt")
        with open(path, "w", encoding="utf-8") as file:
            programs = os.path.join(Room.tried, "target", "bin")
            file.write("#!/bin/sh\n" + STUB.format(calls=self.calls, programs=programs, verdict=verdict, status=status, stops=stops))
        os.chmod(path, 0o755)

    def called(self):
        if not os.path.exists(self.calls):
            return 0
        with open(self.calls, encoding="utf-8") as file:
            return file.read().count("run rulebook_pipe\n")

    def with_rt(self):
        path = ":".join((os.path.join(self.room.outer, "kit"), self.room.tools(), "/usr/bin:/bin"))
        return {"env": self.room.environment(PATH=path, RULEBOOK_RUN=emulator())}

    def without_rt(self):
        return {"env": self.room.environment(PATH=self.room.tools(), RULEBOOK_RUN=emulator())}


def building():
    with Room() as room:
        clone = Clone(room)
        no_rt = "and the Rattle toolchain's command rt is not on the PATH"
        room.expect(2, "", f"the program clause_file is not built, {no_rt}", "show", "addition.book", **clone.without_rt())
        clone.rt(verdict="not-proved", status=1)
        ran = room.expect(2, "", "they are not proved; target/desk/log has what rt said", "show", "addition.book", **clone.with_rt())
        holds("a proof that fails is told", "rulebook_pipe NOT PROVED" in ran.sentences)
        room.expect(2, "", "they are not proved; target/desk/log has what rt said", "show", "addition.book", **clone.with_rt())
        room.expect(2, "", f"the programs are not known to be built from the sources that stand here, {no_rt}", "show", "addition.book", **clone.without_rt())
        compare("nothing is recorded of what is not proved", 2, clone.called())
        clone.rt()
        ran = room.expect(0, "symbols f0/0 f1/1 f2/2", "rulebook_pipe proved", "show", "addition.book", **clone.with_rt())
        holds("how far it is, crate by crate", "reply proved" in ran.sentences)
        compare("proved by one call each", 3, clone.called())
        room.expect(0, "symbols f0/0 f1/1 f2/2", "", "show", "addition.book", **clone.with_rt())
        room.expect(0, "symbols f0/0 f1/1 f2/2", "", "show", "addition.book", **clone.without_rt())
        compare("and not again", 3, clone.called())
        clone.source("fn main() {  }\n")
        clone.rt(stops="yes")
        room.expect(2, "", "they are not proved; target/desk/log has what rt said", "show", "addition.book", **clone.with_rt())
        room.expect(2, "", f"the programs are not known to be built from the sources that stand here, {no_rt}", "show", "addition.book", **clone.without_rt())
        compare("rt stopped at the first program", 3, clone.called())
        clone.rt()
        clone.source("fn main() { }\n")
        stale = f"the programs are not known to be built from the sources that stand here, {no_rt}"
        room.expect(2, "", stale, "show", "addition.book", **clone.without_rt())
        ran = room.expect(0, "rulebook 1.0.0", "", "--version", **clone.without_rt())
        holds("--version says that they are older", "rulebook_pipe not built from these sources" in ran.out)
        room.expect(0, "symbols f0/0 f1/1 f2/2", "rulebook_pipe proved", "show", "addition.book", **clone.with_rt())
        compare("proved again after a change", 4, clone.called())
        for part in ("specs", "proofs"):
            os.mkdir(os.path.join(clone.home, "crates", "one", part))
            with open(os.path.join(clone.home, "crates", "one", part, "Lib.antt"), "w", encoding="utf-8") as file:
                file.write("\n")
            room.expect(2, "", stale, "show", "addition.book", **clone.without_rt())
            room.expect(0, "symbols f0/0 f1/1 f2/2", "rulebook_pipe proved", "show", "addition.book", **clone.with_rt())
        with open(os.path.join(clone.home, "target", "bin", "rulebook_pipe"), "ab") as file:
            file.write(b"\0")
        room.expect(2, "", stale, "show", "addition.book", **clone.without_rt())
        room.expect(0, "symbols f0/0 f1/1 f2/2", "rulebook_pipe proved", "show", "addition.book", **clone.with_rt())
        room.expect(0, "cleared", ORDER_LAST, "check", "addition.book", "ordered", **clone.without_rt())


def walk(folder):
    return [os.path.join(inside, name) for inside, folders, names in os.walk(folder) for name in folders + names]


def users():
    """As another user, where root runs this: root may write and read everything."""
    if os.geteuid() != 0:
        print("tests/desk: only root can try the desk as another user; this section was not tried", flush=True)
        return
    with Room() as room:
        clone = Clone(room)
        clone.rt()
        other = {**clone.with_rt(), "preexec_fn": as_nobody}
        shutil.rmtree(os.path.join(clone.home, "target"))
        os.makedirs(os.path.join(clone.home, "target", "bin"))
        ran = room.expect(2, "", AnyLast(""), "show", "addition.book", **other)
        compare("another user's clone, nothing built", f"the program clause_file is not built, and {clone.home}/target/desk cannot be written; "
                "one who may write there has them proved by any command that reads a book", ran.last)
        room.use("show", "addition.book", **clone.with_rt())
        before = {path: os.lstat(path).st_mtime_ns for path in walk(clone.home)}
        room.expect(0, "symbols f0/0 f1/1 f2/2", "", "show", "addition.book", **other)
        os.chmod(room.folder, 0o777)
        room.clears("addition.book.ranks", "clear", "addition.book", "--solver", "cadical", **other)
        compare("another user's clone is as before", before, {path: os.lstat(path).st_mtime_ns for path in walk(clone.home)})
        os.chmod(room.folder, 0o755)
        room.write("secret", room.read("addition.book"))
        os.chmod(room.at("secret"), 0)
        room.expect(2, "", "secret cannot be read: permission denied", "clear", "secret", **other)
        denied = "cannot be written: permission denied; --ranks FILE names another place"
        room.expect(2, "", f"addition.book.ranks {denied}", "clear", "addition.book", "--solver", "cadical", **other)
        room.expect(2, "", f"one_rule.book.ranks {denied}", "clear", "one_rule.book", "--solver", "./locks_its_folder", **other)
