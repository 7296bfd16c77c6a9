"""Files that are read: missing, broken, endless; books, ranks, records, answers."""
import contextlib
import os
import pty
import subprocess
import time

from at_the_desk.room import ELEVEN, FOURTEEN, HOME, HOW, ORDER_LAST, SECONDS, SEVEN, THIRTEEN, TWELVE, Room, compare, emulator, holds


def inputs():
    with Room() as room:
        room.expect(2, "", "there is no file missing.book", "clear", "missing.book")
        os.mkdir(room.at("folder"))
        room.expect(2, "", "folder is a folder", "clear", "folder")
        room.expect(2, "", "there is no file missing.ranks", "check", "addition.book", "missing.ranks")
        room.expect(2, "", "folder is a folder", "run", "addition.book", "ordered", "folder")
        two = "byte 0 of the book is no kind of record: the kinds are 1 to 5, and this byte or one before it is wrong"
        room.expect(1, "refused 2 at 0", two, "show", "/dev/zero", seconds=20)
        room.expect(1, "refused 7 at 0", SEVEN, "check", "addition.book", "/dev/zero", seconds=20)
        room.expect(1, "refused 11 at 0", ELEVEN, "run", "addition.book", "ordered", "/dev/zero", seconds=20)
        room.expect(1, "refused 12 at 0", TWELVE, "answer", "one_rule.book", "/dev/zero", seconds=20)
        room.write("-", room.read("undo.book"))
        room.expect(0, "symbols f0/1 f1/1 f2/0", "", "show", "./-")
        shown = room.use("show", "-", given=room.read("addition.book"))
        compare("- is standard input", room.use("show", "addition.book").out, shown.out)
        compare("./- is the file", room.use("show", "undo.book").out, room.use("show", "--", "./-").out)
        room.expect(2, "", f"only one file can be standard input {HOW}", "check", "-", "-")
        ran = room.expect(0, "cleared", ORDER_LAST, "clear", "-", given=room.read("addition.book"))
        holds("a book from standard input: the ranks are in no file", "they are in no file" in ran.err)
        room.clears("elsewhere", "clear", "addition.book", "--ranks", "elsewhere")
        room.expect(0, "cleared", ORDER_LAST, "clear", "-", "--ranks", "piped", given=room.read("addition.book"), new=("piped", "piped.of"))
        compare("ranks of a book from standard input", (0, "cleared"), room.verdict("addition.book", "piped"))
        endless(room, two)
        room.write("-x", room.read("addition.book"))
        room.expect(0, "symbols f0/0 f1/1 f2/2", "", "show", "--", "-x")
        room.expect(2, "", f"show takes no option -x {HOW}", "show", "-x")


def endless(room, sentence):
    """A pipe that brings more than any book has, and stays open: the reply does not wait for its end."""
    ours, theirs = os.pipe()
    child = room.start("show", "-", stdin=ours)
    os.close(ours)
    os.set_blocking(theirs, False)
    with contextlib.suppress(OSError):
        left = 200000
        while left > 0 and child.poll() is None:
            try:
                left -= os.write(theirs, bytes(min(left, 4096)))
            except BlockingIOError:
                time.sleep(0.01)
    ran = room.finish(child, seconds=20)
    os.close(theirs)
    compare("a pipe that stays open", (1, "refused 2 at 0", sentence), (ran.status, ran.first, ran.last))


def books():
    with Room() as room:
        ends = "send the whole file; its last byte is 05"
        room.expect(1, "refused 1 at 0", f"the book ends before its end record, after 0 bytes: {ends}", "clear", "nothing")
        room.expect(1, "refused 1 at 20", f"the book ends before its end record, after 20 bytes: {ends}", "clear", "shortened")
        kinds = "the kinds are 1 to 5, and this byte or one before it is wrong"
        room.expect(1, "refused 2 at 0", f"byte 0 of the book is no kind of record: {kinds}", "clear", "zeros")
        room.expect(1, "refused 2 at 2", f"byte 2 of the book is no kind of record: {kinds}", "clauses", "unknown")
        room.expect(1, "refused 3 at 5", "the record at byte 5 of the book may not stand there: symbols come first, a node only inside a side, a rule "
                    "or the end only when both sides are whole", "clear", "misplaced")
        room.expect(1, "refused 4 at 1", "byte 1 of the book is out of its range: an arity is 0 to 6, a variable 0 to 15, a symbol one of those declared",
                    "clear", "range")
        room.expect(1, "refused 5 at 32", "the record at byte 32 of the book is one too many: a book has at most 16 symbols, 32 rules, and 10 nodes on a side",
                    "clear", "many")
        room.expect(1, "refused 6 at 1", "byte 1 of the book stands behind its end: nothing may follow the end record 05", "clear", "behind")
        room.expect(0, "p cnf 26 69", "", "clauses", "one_rule.book")


def ranks():
    with Room() as room:
        ran = room.expect(0, "cleared", ORDER_LAST, "check", "addition.book", "ordered")
        compare("check: its sentences", ["the ranks make every rule decrease: every record comes to rest",
                                         "as an order: f2 > f0, f1 (names with a comma between them have equal ranks and are unrelated)"], ran.sentences)
        room.expect(1, "refused 7 at 0", SEVEN, "check", "addition.book", "nothing")
        room.expect(1, "refused 7 at 0", SEVEN, "check", "addition.book", "zeros")
        eight = 'does not decrease under these ranks: other ranks may do, and "rulebook clear" asks a solver for them'
        ran = room.expect(1, "refused 8 at 0", "rule 0: f0(x0) -> f1(x0)", "check", "one_rule.book", "unordered")
        compare("refusal 8: its sentence", f"rule 0 {eight}", ran.sentences[0])
        room.expect(1, "refused 8 at 1", "rule 1: f1(x0) -> f0(x0)", "run", "undo.book", "short", "undo.record")
        room.expect(0, "done", "no rule fits any more", "run", "addition.book", "ordered", "addition.record")
        room.expect(0, "done", "no rule fits any more", "run", "addition.book", "ordered", "addition.record", "--budget", "18446744073709551615")
        room.expect(4, "too large", "the next term would have more than 256 nodes",
                    "run", "--budget", "10", "doubling.book", "doubling.ranks", "doubling.record")
        traced(room)
        for record in ("variable", "nothing", "zeros"):
            room.expect(1, "refused 11 at 0", ELEVEN, "run", "addition.book", "ordered", record)
        room.expect(1, "refused 11 at 0", ELEVEN, "argument", "addition.book", "variable", "0")
        room.expect(0, "start 2", "", "argument", "addition.book", "addition.record", "0")
        room.expect(1, "refused 15 at 0", "the record's root has no argument of that number: arguments are numbered from 0",
                    "argument", "addition.book", "addition.record", "2")
        ran = room.expect(0, "done", "no rule fits any more", "run", "ackermann.book", "ackermann.ranks", "a_3_4")
        compare("no progress where there is no terminal", 1, len(ran.sentences))
        on_terminal(room)


def traced(room):
    """Each term with the rule and the place of the step that it takes; then the reply of the run."""
    addition = ("run", "addition.book", "ordered", "addition.record")
    steps = ["term f2(f1(f0),f0)", "step rule 1 at 0", "term f1(f2(f0,f0))", "step rule 0 at 2"]
    ran = room.expect(0, steps[0], "no rule fits any more", *addition, "--trace")
    compare("--trace: its lines", steps + room.use(*addition).out.splitlines(), ran.out.splitlines())
    ran = room.expect(3, steps[0], "the budget, 1, is used and a rule still fits; --budget gives it more", *addition, "--trace", "--budget", "1")
    compare("--trace: steps that were made", steps[:2] + ["spent"], ran.out.splitlines()[:3])
    room.expect(3, "spent", "the budget, 0, is used and a rule still fits; --budget gives it more", *addition, "--trace", "--budget", "0")
    room.expect(4, "term f1(f1(f1(f1(f1(f1(f1(f1(f1(f0)))))))))", "the next term would have more than 256 nodes",
                "run", "doubling.book", "doubling.ranks", "doubling.record", "--trace")
    room.expect(1, "refused 11 at 0", ELEVEN, "run", "addition.book", "ordered", "variable", "--trace")
    ackermann = ("run", "ackermann.book", "ackermann.ranks", "a_3_4")
    lines = room.use(*ackermann, "--trace", "--budget", "250").out.splitlines()
    compare("a longer --trace: as many steps as were made", 250, sum(line.startswith("step rule ") for line in lines))
    for made in (0, 99, 100, 101, 249):
        compare(f"a longer --trace: the term after {made} steps", room.use(*ackermann, "--budget", str(made)).out.splitlines()[3], lines[2 * made])


def on_terminal(room):
    ours, theirs = pty.openpty()
    child = room.start("run", "ackermann.book", "ackermann.ranks", "a_3_4", stderr=theirs)
    os.close(theirs)
    told = b""
    with contextlib.suppress(OSError):
        while piece := os.read(ours, 4096):
            told += piece
    ran = room.finish(child)
    os.close(ours)
    compare("on a terminal: its end", (0, "done"), (ran.status, ran.first))
    together = room.use("check", "one_rule.book", "unordered", stderr=subprocess.STDOUT)
    compare("on one terminal the line stands before its sentences", "refused 8 at 0", together.first)
    holds("on a terminal: how far it is", b"steps 10000, nodes" in told)


def answers():
    with Room() as room:
        room.clears("one_rule.book.ranks", "answer", "one_rule.book", "good")
        room.expect(1, "refused 8 at 0", "rule 0: f0(x0) -> f1(x0)", "answer", "one_rule.book", "lie")
        room.expect(1, "refused 13 at 21", f"the solver's answer is malformed from byte 21 on: {THIRTEEN}", "answer", "one_rule.book", "unclosed")
        room.expect(1, "refused 14 at 0", FOURTEEN, "answer", "one_rule.book", "unsure")
        room.expect(1, "refused 12 at 0", TWELVE, "answer", "one_rule.book", "long")
        ran = room.clears("one_rule.book.ranks", "answer", "one_rule.book", "chatty")
        compare("a long answer: a note", "the answer is longer than 65,536 bytes; its c lines are left out, and a place counts without them", ran.sentences[0])
        room.write("commented", b"c one\nc two\ns SATISFIABLE\nx\n")
        room.expect(1, "refused 13 at 26", f"the solver's answer is malformed from byte 26 on: {THIRTEEN}", "answer", "one_rule.book", "commented")


def requests():
    """The requests that the gate puts to rulebook_pipe are those of its readable list."""
    crate = os.path.join(HOME, "crates", "rulebook_pipe")
    made = subprocess.run([os.path.join(crate, "make-stdin")], cwd=HOME, stdout=subprocess.PIPE, timeout=SECONDS, check=False)
    with open(os.path.join(crate, "stdin"), "rb") as file:
        holds("what the requests of rulebook_pipe are in bytes", made.returncode == 0 and made.stdout == file.read())
    program = [*emulator().split(), os.path.join(Room.tried, "target", "bin", "rulebook_pipe")]
    for what, given, said in (
            ("a whole request", b"c 0 1 0 0\n\5", b"cleared\n"),
            ("a book of which 1 byte of 5 comes", b"c 0 5 0 0\n\5", b"cut off\n"),
            ("no byte of the ranks", b"c 0 3 1 0\n\1\0\5", b"cut off\n"),
            ("no byte of the record", b"r 9 3 1 3\n\1\0\5\0", b"cut off\n"),
            ("a byte missing behind those that are kept", b"c 0 1 70000 0\n\5" + bytes(69999), b"cut off\n"),
            ("a whole request, and one that is cut off", b"c 0 1 0 0\n\5c 0 5 0 0\n\5", b"cleared\ncut off\n")):
        ran = subprocess.run(program, input=given, stdout=subprocess.PIPE, timeout=SECONDS, check=False)
        compare(f"rulebook_pipe: {what}", (0, said), (ran.returncode, ran.stdout))
