"""Solvers: those of Debian, none at all, and those that lie, hang or write where they can; and signals while they run."""
import os
import shutil
import signal
import time

from at_the_desk.room import FOURTEEN, SOLVERS, THIRTEEN, TIME_UP, TWELVE, Room, compare, emulator, holds, running, until
from at_the_desk.clones import make_release


def solvers():
    with Room() as room:
        for name, package in SOLVERS.items():
            if not shutil.which(name):
                compare(f"{name} is installed (on Debian: apt-get install {package})", True, False)
                continue
            room.clears("ten_symbols.book.ranks", "clear", "ten_symbols.book", "--solver", name)
            room.clears("empty.book.ranks", "clear", "empty.book", "--solver", name)
            room.expect(1, "refused 14 at 0", FOURTEEN, "clear", "undo.book", "--solver", name)
        room.write("a book", room.read("addition.book"))
        room.clears("a book.ranks", "clear", "a book")
        room.clears("one_rule.book.ranks", "clear", "one_rule.book", "--solver", "./two_words -q 'b c'")
        room.expect(2, "", "--solver is a program, perhaps with words of its own, as 'cadical --sat'", "clear", "one_rule.book", "--solver", "' ")
        room.expect(2, "", "there is no program ./missing", "clear", "one_rule.book", "--solver", "./missing")
        room.expect(2, "", "there is no program ./not_a_program", "clear", "one_rule.book", "--solver", "./not_a_program")
        no_solver(room)


def no_solver(room):
    bare = {"env": room.environment(PATH=room.tools(), RULEBOOK_RUN=emulator())}
    room.expect(2, "", "a SAT solver is not installed; on Debian: apt-get install cadical", "clear", "addition.book", **bare)
    room.expect(2, "", "cryptominisat5 is not installed; on Debian: apt-get install cryptominisat",
                "clear", "addition.book", "--solver", "cryptominisat5", **bare)
    room.expect(0, "symbols f0/0 f1/1 f2/2", "", "show", "addition.book", **bare)


def bad_solvers():
    with Room() as room:
        room.expect(1, "refused 14 at 0", FOURTEEN, "clear", "one_rule.book", "--solver", "./refuses")
        for name, status in (("garbage", 0), ("silent", 10)):
            ran = room.expect(1, "refused 13 at 0", f"{name} ended with status {status}", "clear", "one_rule.book", "--solver", f"./{name}")
            compare(f"{name}: its sentence", f"the solver's answer is malformed from byte 0 on: {THIRTEEN}", ran.sentences[0])
        room.expect(1, "refused 12 at 0", TWELVE, "clear", "one_rule.book", "--solver", "./endless", seconds=20)
        room.expect(1, "refused 8 at 0", "rule 0: f0(x0) -> f1(x0)", "clear", "one_rule.book", "--solver", "./lies")
        room.clears("one_rule.book.ranks", "clear", "one_rule.book", "--solver", "./chats")
        room.clears("one_rule.book.ranks", "clear", "one_rule.book", "--solver", "./locks_its_folder")
        room.clears("one_rule.book.ranks", "clear", "one_rule.book", "--solver", "./late")
        room.clears("one_rule.book.ranks", "clear", "one_rule.book", "--solver", "./at_the_last_moment")
        room.expect(1, "refused 8 at 0", "rule 0: f0(x0) -> f1(x0)", "clear", "one_rule.book", "--solver", "./in_place")
        book = room.read("one_rule.book")
        ran = room.expect(2, "", "one_rule.book was changed while it was being cleared; no ranks are left. Clear it again",
                          "clear", "one_rule.book", "--solver", "./rewrites_book", env=room.environment(BOOK=room.at("one_rule.book")), new=("one_rule.book",))
        room.write("one_rule.book", book)
        room.clears("one_rule.book.ranks", "clear", "one_rule.book", "--solver", "./lists", env=room.environment(LISTED=os.path.join(room.outer, "listed")))
        with open(os.path.join(room.outer, "listed"), encoding="utf-8") as file:
            listed = file.read().splitlines()
        compare("the solver's folder: what lies in it, where, for whom", ("book.cnf", True, "drwx------"),
                (" ".join(listed[:-2]), listed[-2].startswith(room.temporary), listed[-1][:10]))
        as_minisat(room)
        no_room_for_clauses(room)


def no_room_for_clauses(room):
    """No folder can be made for temporary files."""
    os.mkdir(room.at("full"))
    room.write("full/sitecustomize.py", b"import tempfile\ndef mkdtemp(**_):\n    raise OSError(28, 'No space left on device')\ntempfile.mkdtemp = mkdtemp\n")
    room.expect(2, "", "the clause file cannot be written for the solver: no space left on device", "clear", "one_rule.book", "--solver", "./tells",
                env=room.environment(PYTHONPATH=room.at("full")))


def as_minisat(room):
    """One that leaves something else than its result."""
    os.mkdir(room.at("false"))
    for what, lines in (("a link", f"ln -s '{room.at('good')}' \"$3\""), ("a pipe", 'mkfifo "$3"'), ("nothing", ":"), ("a folder", 'mkdir "$3"')):
        room.program("false/minisat", lines + "\n")
        ran = room.expect(1, "refused 13 at 0", "minisat ended with status 0", "clear", "one_rule.book", "--solver", "false/minisat", seconds=20)
        holds(f"minisat left {what}", "malformed" in ran.err)


def limits():
    with Room() as room:
        for name in ("hangs", "with_children", "stubborn", "endless_comments"):
            began = time.monotonic()
            room.expect(5, "", TIME_UP.format(name), "clear", "one_rule.book", "--solver", f"./{name}", "--limit", "1", seconds=20)
            holds(f"{name}: within its limit", time.monotonic() - began < 15)
        compare("the solvers' children have ended", "", running("sleep 98"))
        began = time.monotonic()
        room.clears("one_rule.book.ranks", "clear", "one_rule.book", "--solver", "./leaves_children", seconds=20)
        holds("a solver's children are not waited for", time.monotonic() - began < 15)
        compare("and have ended", "", running("sleep 97"))


def signals():
    with Room() as room:
        room.program("notes_itself", "sleep 96 &\necho $$ >\"$NOTED\"\nexec sleep 95\n")
        noted = os.path.join(room.outer, "noted")
        for number in (signal.SIGTERM, signal.SIGINT, signal.SIGHUP):
            before = room.there()
            child = room.start("clear", "addition.book", "--solver", "./notes_itself", env=room.environment(NOTED=noted))
            holds(f"{number.name}: the solver runs", until(lambda: os.path.exists(noted) and os.path.getsize(noted)))
            os.kill(child.pid, number)
            ran = room.finish(child, seconds=20)
            compare(f"{number.name}: the command ends of it", -number, ran.status)
            holds(f"{number.name}: the solver and its children have ended", until(lambda: not running("sleep 95") and not running("sleep 96"), 5))
            compare(f"{number.name}: no ranks", before, room.there())
            room.tidy(number.name)
            os.unlink(noted)
        release = make_release(room, rulebook_pipe=f"echo $$ >{noted}\nexec sleep 94\n")
        room.home = release
        child = room.start("show", "addition.book", env=room.environment(RULEBOOK_RUN="/usr/bin/env"))
        holds("a program runs", until(lambda: os.path.exists(noted) and os.path.getsize(noted)))
        os.kill(child.pid, signal.SIGTERM)
        compare("TERM while a program runs", -signal.SIGTERM, room.finish(child, seconds=20).status)
        holds("the program has ended", until(lambda: not running("sleep 94"), 5))
        os.unlink(noted)
        child = room.start("show", "addition.book", env=room.environment(RULEBOOK_RUN="/usr/bin/env"),
                           preexec_fn=lambda: signal.signal(signal.SIGHUP, signal.SIG_IGN))
        holds("a program runs", until(lambda: os.path.exists(noted) and os.path.getsize(noted)))
        os.kill(child.pid, signal.SIGHUP)
        time.sleep(0.5)
        compare("HUP that is ignored stays so", None, child.poll())
        os.kill(child.pid, signal.SIGTERM)
        room.finish(child, seconds=20)
