"""Where ranks, sheets and lines go: targets, older ranks, sums, full disks and closed pipes."""
import hashlib
import json
import os
import pty
import stat
import subprocess

from at_the_desk.room import ORDER_LAST, TIME_UP, Room, compare, holds


def targets():
    with Room() as room:
        os.symlink("one_rule.book", room.at("link"))
        os.symlink("nowhere", room.at("dangling"))
        os.mkfifo(room.at("fifo"))
        os.mkdir(room.at("folder"))
        os.link(room.at("one_rule.book"), room.at("hard"))
        # a device that nobody can replace, not even a broken desk that root runs
        ours, theirs = pty.openpty()
        device = os.ttyname(theirs)
        left = "and is left as it is; --ranks FILE names another place"
        read = "that is to be read; --ranks FILE names another place"
        for name, kind in (("link", "a link"), ("dangling", "a link"), ("fifo", "a pipe"), ("folder", "a folder"), (device, "a device")):
            room.expect(2, "", f"{name} is {kind}, {left}", "clear", "one_rule.book", "--ranks", name, seconds=20)
        for name in ("one_rule.book", "./one_rule.book", "hard"):
            room.expect(2, "", f"{name} is the file one_rule.book {read}", "clear", "one_rule.book", "--ranks", name)
        room.expect(2, "", f"good is the file good {read}", "answer", "one_rule.book", "good", "--ranks", "good")
        room.expect(2, "", "there is no folder nowhere; --ranks FILE names another place", "clear", "one_rule.book", "--ranks", "nowhere/ranks")
        os.symlink("short", room.at("one_rule.book.ranks.of"))
        room.expect(2, "", f"one_rule.book.ranks.of is a link, {left}", "clear", "one_rule.book")
        os.unlink(room.at("one_rule.book.ranks.of"))
        holds("the device is still there", stat.S_ISCHR(os.lstat(device).st_mode))
        os.close(ours)
        os.close(theirs)
        room.write("one_rule.book.ranks", b"older")
        os.link(room.at("one_rule.book.ranks"), room.at("other_name"))
        room.clears("one_rule.book.ranks", "clear", "one_rule.book")
        compare("a file is replaced and not written into", b"older", room.read("other_name"))
        for end in (".part", ".tmp", ".new", "~"):
            os.symlink("short", room.at("one_rule.book.ranks" + end))
        room.clears("one_rule.book.ranks", "clear", "one_rule.book")
        spoilt(room)


def spoilt(room):
    """A disk that keeps something else than what was written: the file is read back, checked, and removed."""
    os.mkdir(room.at("disk"))
    room.write("disk/sitecustomize.py", b"""
import os
kept = os.rename
def rename(a, b, **more):
    kept(a, b, **more)
    if str(b).endswith('.ranks'):
        at = os.open(b, os.O_WRONLY, dir_fd=more.get('dst_dir_fd'))
        os.write(at, bytes([0, 1, 2]))
        os.close(at)
os.rename = rename
""")
    room.expect(2, "", "one_rule.book.ranks does not hold the ranks that were written, and is removed", "clear", "one_rule.book",
                env=room.environment(PYTHONPATH=room.at("disk")))
    room.write("disk/sitecustomize.py", b"""
import os, stat
def fsync(at):
    if stat.S_ISREG(os.fstat(at).st_mode):
        raise OSError(28, 'No space left on device')
os.fsync = fsync
""")
    no_space = "one_rule.book.ranks cannot be written: no space left on device; --ranks FILE names another place"
    room.expect(2, "", no_space, "clear", "one_rule.book", env=room.environment(PYTHONPATH=room.at("disk")))
    room.write("one_rule.book.ranks", bytes([2, 1, 0]))
    room.write("one_rule.book.ranks.of", b"")
    ran = room.expect(2, "", no_space, "clear", "one_rule.book", env=room.environment(PYTHONPATH=room.at("disk")))
    compare("ranks from before stay where new ones cannot be written",
            "note: one_rule.book.ranks is from before; the proved check accepts it for the book as it is now", ran.sentences[0])


def older_ranks():
    with Room() as room:
        room.write("undo.book.ranks", bytes([1, 0, 0]))
        room.write("undo.book.ranks.of", b"")
        room.expect(1, "refused 14 at 0", "note: undo.book.ranks is from before and does NOT clear this book; it is now undo.book.ranks.stale",
                    "clear", "undo.book", new=("undo.book.ranks.stale",), gone=("undo.book.ranks", "undo.book.ranks.of"))
        room.write("one_rule.book.ranks", bytes([2, 1, 0]))
        kept = "note: one_rule.book.ranks is from before; the proved check accepts it for the book as it is now"
        room.expect(1, "refused 13 at 0", kept, "clear", "one_rule.book", "--solver", "./garbage")
        room.expect(5, "", TIME_UP.format("hangs"), "clear", "one_rule.book", "--solver", "./hangs", "--limit", "1")
        room.write("one_rule.book.ranks", bytes([0, 1, 2]))
        room.expect(1, "refused 14 at 0", "note: one_rule.book.ranks is from before and does NOT clear this book; it is now one_rule.book.ranks.stale",
                    "answer", "one_rule.book", "unsure", new=("one_rule.book.ranks.stale",), gone=("one_rule.book.ranks",))
        room.write("addition.book.ranks", bytes([0, 0, 1]))
        room.write("addition.book", b"")
        room.expect(1, "refused 1 at 0", "note: addition.book.ranks is from before and does NOT clear this book; it is now addition.book.ranks.stale",
                    "clear", "addition.book", new=("addition.book.ranks.stale",), gone=("addition.book.ranks",))


def bound():
    """Ranks know their book."""
    with Room() as room:
        room.use("clear", "addition.book")
        sums = [hashlib.sha256(room.read(name)).hexdigest() + "  " + name for name in ("addition.book", "addition.book.ranks")]
        compare("the sums beside the ranks", sums, room.read("addition.book.ranks.of").decode().splitlines())
        ran = room.expect(0, "cleared", ORDER_LAST, "check", "addition.book", "addition.book.ranks")
        holds("no note on ranks of this book", "note" not in ran.err)
        another = ("note: addition.book.ranks was made for another book, or for this one before it was changed: addition.book.ranks.of has its sum. "
                   "What follows is of the book as it is now")
        room.write("doubled.book", room.read("addition.book")[:-1] + bytes([2, 3, 1, 4, 0, 4, 0, 5]))
        ran = room.expect(0, "cleared", ORDER_LAST, "check", "doubled.book", "addition.book.ranks")
        compare("check: a note on ranks of another book", another, ran.sentences[0])
        ran = room.expect(0, "done", ORDER_LAST, "run", "doubled.book", "addition.book.ranks", "addition.record")
        compare("run: a note on ranks of another book", another, ran.sentences[0])
        room.write("addition.book.ranks", bytes([0, 1, 2]))
        page = json.loads(room.use("check", "addition.book", "ordered", "--json").out)
        compare("ranks without sums", "not known", page.get("ranks_of"))
        ran = room.expect(0, "cleared", ORDER_LAST, "check", "addition.book", "addition.book.ranks")
        compare("check: a note on ranks that were changed", "note: addition.book.ranks is not as `clear` wrote it: addition.book.ranks.of has its sum",
                ran.sentences[0])


def output():
    with Room() as room:
        def into(stdout, *words):
            with stdout as to:
                child = room.start(*words, stdout=to)
            return room.finish(child)

        for words_ in (("show", "addition.book"), ("clauses", "dosing.book"), ("check", "addition.book", "ordered"), ("refusals",), ("help",), ("--version",),
                       ("run", "addition.book", "ordered", "addition.record"), ("clear", "addition.book"), ("show", "addition.book", "--json")):
            ran = into(open("/dev/full", "wb"), *words_)
            compare(f"{words_}: a full disk", (2, "standard output cannot be written: no space left on device"), (ran.status, ran.last))
            ours, theirs = os.pipe()
            os.close(ours)
            ran = into(os.fdopen(theirs, "wb"), *words_)
            compare(f"{words_}: a closed pipe", (2, "standard output cannot be written: broken pipe"), (ran.status, ran.last))
            room.tidy(f"{words_}: a closed pipe")
        child = subprocess.Popen(["sh", "-c", 'exec "$@" >&-', "sh", *room.words(["clear", "addition.book", "--ranks", "closed"])], cwd=room.folder,
                                 env=room.environment(), stdin=subprocess.DEVNULL, stderr=subprocess.PIPE)
        ran = room.finish(child)
        compare("no standard output", (2, "standard output cannot be written: bad file descriptor"), (ran.status, ran.last))
        compare("no standard output: the ranks", (0, "cleared"), room.verdict("addition.book", "closed"))
        child = subprocess.Popen(["sh", "-c", 'exec "$@" 2>&-', "sh", *room.words(["check", "addition.book", "ordered"])], cwd=room.folder,
                                 env=room.environment(), stdin=subprocess.DEVNULL, stdout=subprocess.PIPE)
        ran = room.finish(child)
        compare("no standard error", (0, "cleared"), (ran.status, ran.first))
