"""The words of a command, its help, JSON, text and sheets."""
import hashlib
import json
import os
import shutil

from at_the_desk.room import ANY_HELP, ELEVEN, FOURTEEN, HOME, HOW, TIME_UP, AnyLast, Room, compare, holds


def words():
    with Room() as room:
        ran = room.expect(2, "", "is spent; 4 the term is too large; 5 the solver's time is up.")
        holds("no word: all commands are listed", all(name in ran.err for name in ("clear BOOK", "check BOOK RANKS", "run BOOK RANKS RECORD", "make TEXT")))
        room.expect(2, "", f"there is no command clera {HOW}", "clera", "addition.book")
        room.expect(2, "", f"clear takes BOOK, and 0 words were given {HOW}", "clear")
        room.expect(2, "", f"check takes BOOK RANKS, and 1 words were given {HOW}", "check", "addition.book")
        room.expect(2, "", f"check takes no option --solver {HOW}", "check", "addition.book", "short", "--solver", "cadical")
        room.expect(2, "", f"--limit needs a value {HOW}", "clear", "addition.book", "--limit")
        for limit in ("0", "-1", "1.5", "", "1e3", "9999999999"):
            room.expect(2, "", f"--limit is a number of seconds, 1 or more {HOW}", "clear", "addition.book", "--limit", limit)
        for budget in ("-1", "18446744073709551616", "1_0", "٣", "+1"):
            room.expect(2, "", f"--budget is a number of steps, 0 to 2^64 - 1 {HOW}", "run", "addition.book", "ordered", "addition.record", "--budget", budget)
        room.expect(2, "", f"an argument's number is 0 to 2^64 - 1 {HOW}", "argument", "addition.book", "addition.record", "first")
        room.expect(2, "", f"--trace takes no value {HOW}", "run", "addition.book", "ordered", "addition.record", "--trace=1")
        room.expect(2, "", f"check takes no option --trace {HOW}", "check", "addition.book", "ordered", "--trace")
        room.expect(3, "spent", "the budget, 1, is used and a rule still fits; --budget gives it more",
                    "run", "--budget=1", "--", "addition.book", "ordered", "addition.record")
        room.expect(0, "rulebook: clears rule books, and runs records under them", "", "help")
        room.expect(0, "rulebook: clears rule books, and runs records under them", "", "--help")
        holds("--json in front", room.use("--json", "show", "addition.book").first.startswith("{"))
        room.expect(2, "", f"there is no command clera {HOW}", "help", "clera")
        for name in ("clear", "check", "run", "argument", "show", "make", "clauses", "answer", "refusals"):
            for ask in ((name, "--help"), ("help", name), (name, "-h")):
                ran = room.expect(0, ANY_HELP, "", *ask)
                holds(f"{ask}: its own help", ran.first.startswith(f"rulebook {name}"))
        ran = room.expect(0, ANY_HELP, "", "--version")
        compare("--version: its version, and what it was built from", {"rulebook", "sources", "clause_file", "rulebook_pipe"},
                {line.split()[0] for line in ran.out.splitlines()} - {"kit"})
        room.expect(0, " 1  the book ends before its end record, after P bytes: send the whole file; its last byte is 05", "", "refusals")


def as_json():
    with Room() as room:
        def told(status, *words, **more):
            ran = room.use(*words, "--json", **more)
            try:
                page = json.loads(ran.out)
            except ValueError:
                page = {}
            compare(f"rulebook {' '.join(words)} --json: status, twice", (status, status), (ran.status, page.get("status")))
            return page

        page = told(0, "clear", "addition.book", "--solver", "cadical")
        compare("clear --json", ("cleared", list(room.read("addition.book.ranks")), "addition.book.ranks"),
                (page.get("result"), page.get("ranks"), page.get("ranks_file")))
        compare("clear --json: solver and sum", ("cadical", hashlib.sha256(room.read("addition.book")).hexdigest()),
                (page.get("solver", {}).get("name"), page.get("book", {}).get("sha256")))
        page = told(0, "check", "addition.book", "addition.book.ranks")
        compare("check --json", ("cleared", "this book"), (page.get("result"), page.get("ranks_of")))
        page = told(1, "check", "one_rule.book", "unordered")
        compare("check --json, refused", ("refused", 8, 0, {"number": 0, "left": "f0(x0)", "right": "f1(x0)"}),
                (page.get("result"), page.get("refusal"), page.get("place"), page.get("rule")))
        page = told(3, "run", "addition.book", "ordered", "addition.record", "--budget=1")
        compare("run --json", ("spent", 1, "f1(f2(f0,f0))"), (page.get("result"), page.get("steps"), page.get("term", "").replace(" ", "")))
        holds("run --json: no trace unless it is asked for", "trace" not in page)
        page = told(0, "run", "addition.book", "ordered", "addition.record", "--trace")
        compare("run --trace --json", ("done", [{"term": "f2(f1(f0),f0)", "rule": 1, "place": 0}, {"term": "f1(f2(f0,f0))", "rule": 0, "place": 2}]),
                (page.get("result"), page.get("trace")))
        page = told(0, "argument", "addition.book", "addition.record", "0")
        compare("argument --json", (2, "f1(f0)"), (page.get("start"), page.get("term")))
        page = told(0, "show", "undo.book")
        compare("show --json", ({"name": "f1", "arity": 1}, 2), (page.get("symbols", [0, 0])[1], len(page.get("rules", []))))
        page = told(0, "clauses", "one_rule.book")
        compare("clauses --json", (26, 69, room.use("clauses", "one_rule.book").out), (page.get("variables"), page.get("clauses"), page.get("file")))
        compare("refusals --json", 15, len(told(0, "refusals").get("refusals", [])))
        compare("answer --json", "cleared", told(0, "answer", "one_rule.book", "good").get("result"))
        holds("--version --json", told(0, "--version").get("sources"))
        holds("help --json", told(0, "help").get("help"))
        compare("make --json", "made", told(0, "make", "-", "--to", "new", given=b"symbols f0/0\nrecord f0\n").get("result"))
        compare("clear --json, time", TIME_UP.format("hangs"), told(5, "clear", "addition.book", "--solver", "./hangs", "--limit", "1").get("error"))
        compare("an error --json", "there is no file missing", told(2, "show", "missing").get("error"))


def sheets():
    with Room() as room:
        files = ("dosing.book.ranks", "dosing.book.ranks.of", "sheet.html")
        room.expect(0, "cleared", "the clearance sheet is sheet.html", "clear", "dosing.book", "--sheet", "sheet.html", "--solver", "cadical", new=files)
        page = room.read("sheet.html").decode()
        for part in (hashlib.sha256(room.read("dosing.book")).hexdigest(), "f3(f5(f4)) → f1", "<svg", "cadical", "does not say", "that the date is right",
                     "below 256 nodes", "rank 7", "rulebook 1."):
            holds(f"the sheet has: {part}", part in page)
        holds("the sheet needs nothing else", "http" not in page and "src=" not in page and "@import" not in page)
        room.write("<b>&.book", room.read("empty.book"))
        room.expect(0, "cleared", "the clearance sheet is sheet.html", "clear", "<b>&.book", "--sheet", "sheet.html",
                    new=("<b>&.book.ranks", "<b>&.book.ranks.of", "sheet.html"))
        holds("a name is text", "<b>&" not in room.read("sheet.html").decode())
        odd = os.fsdecode(b"\xff.book")
        room.write(odd, room.read("empty.book"))
        ran = room.use("clear", odd, "--sheet", "sheet.html", "--json")
        compare("a name that is no text", (0, odd + ".ranks"), (ran.status, json.loads(ran.out).get("ranks_file")))
        os.symlink("elsewhere", room.at("link"))
        room.expect(2, "", "link is a link, and is left as it is; --sheet FILE names another place", "clear", "dosing.book", "--sheet", "link")
        room.expect(2, "", "dosing.book is the file dosing.book that is to be read; --sheet FILE names another place",
                    "clear", "dosing.book", "--sheet", "dosing.book")
        for name in ("both", "./both.of"):
            room.expect(2, "", f"{name} is where the ranks go; --sheet FILE names another place", "clear", "dosing.book", "--sheet", name, "--ranks", "both")
        room.expect(1, "refused 14 at 0", FOURTEEN, "clear", "undo.book", "--sheet", "undo.html")


def text():
    with Room() as room:
        room.write("new.txt", b"# a book\nsymbols f0/0 f1/1\nrule 0: f1( x0 ) -> x0  # first\nrecord f1(f1(f0))\n")
        made = "what stands above is how the proved reader reads it; written: new.book, new.record"
        room.expect(0, "symbols f0/0 f1/1", made, "make", "new.txt", new=("new.book", "new.record"))
        compare("the book's bytes", bytes([1, 0, 1, 1, 2, 3, 1, 4, 0, 4, 0, 5]), room.read("new.book"))
        compare("the record's bytes", bytes([3, 1, 3, 1, 3, 0, 5]), room.read("new.record"))
        for what, lines, last in (
                ("nonsense", b"nonsense\n", "line 1 is no line of a book: it begins with nonsense"),
                ("a symbol out of turn", b"symbols f1/0\n", "line 1: the symbols are f0/ARITY f1/ARITY and so on, and here stands f1/0"),
                ("a rule out of turn", b"symbols f0/0\nrule 1: f0 -> f0\n", "line 2: a rule is `rule 0: LEFT -> RIGHT`, the rules being numbered from 0"),
                ("no arrow", b"symbols f0/0\nrule 0: f0 f0\n", "line 2: a rule is `rule 0: LEFT -> RIGHT`, the rules being numbered from 0"),
                ("brackets elsewhere", b"symbols f0/0 f1/2\nrule 0: f1(f0),f0 -> f0\n",
                 "the text says `rule 0: f1(f0),f0 -> f0`, and a reader would take it for `rule 0: f1(f0,f0) -> f0`; nothing was written"),
                ("a side moved", b"symbols f0/0 f1/1\nrule 0: f1 -> f0 f0\n",
                 "the text says `rule 0: f1 -> f0f0`, and a reader would take it for `rule 0: f1(f0) -> f0`; nothing was written"),
                ("letters between names", b"symbols f0/0\nrule 0: f0 -> zf0\n",
                 "the text says `rule 0: f0 -> zf0`, and a reader would take it for `rule 0: f0 -> f0`; nothing was written"),
                ("a large number", b"symbols f0/0\nrule 0: f256 -> f0\n", "line 2: 256 is too large a number"),
                ("another record", b"symbols f0/0\nrecord f0 f0\n", ELEVEN),
                ("a record in brackets", b"symbols f0/0\nrecord (f0)\n",
                 "the text says `record (f0)`, and a reader would take it for `record f0`; nothing was written"),
                ("no symbols", b"record f0\n", "a book begins with the line `symbols`, and each symbol with its arity behind it"),
                ("rules first", b"rule 0: x0 -> x0\nsymbols\n", "line 1 is no line of a book: it begins with rule"),
                ("two records", b"symbols f0/0\nrecord f0\nrecord f0\n", "line 3 is no line of a book: it begins with record")):
            room.write("bad.txt", lines)
            ran = room.use("make", "bad.txt")
            compare(f"make: {what}", (True, last), (ran.status in (1, 2), ran.last))
            holds(f"make: {what}: nothing was written", not os.path.exists(room.at("bad.book")) and not os.path.exists(room.at("bad.record")))
        room.write("bad.txt", b"symbols f0/0\nrule 0: f1 -> f0\n")
        ran = room.expect(1, "refused 4 at 4", AnyLast(""), "make", "bad.txt")
        compare("make: the line of a refusal", "line 2: the book that this text makes is refused", ran.sentences[0])
        for name in sorted(os.listdir(os.path.join(HOME, "examples"))):
            if name.endswith(".txt"):
                shutil.copy(os.path.join(HOME, "examples", name), room.at("again.txt"))
                room.use("make", "again.txt")
                for part in (".book", ".record"):
                    if os.path.exists(room.at(name.removesuffix(".txt") + part)):
                        compare(f"{name}: its {part}", room.read(name.removesuffix(".txt") + part), room.read("again" + part))
