"""The commands. What each says of a book, ranks or a record is what a proved program printed."""
import hashlib
import itertools
import os
import re
import stat

from desk import files, replies, sheet, solvers, source
from desk.ends import DONE, REFUSED, SPENT, TOO_LARGE, End, broken, signals_wait

# A trace asks for so many terms by one start of the program.
TRACED_TOGETHER = 100

RESTS = "the ranks make every rule decrease: every record comes to rest"


class Desk:
    def __init__(self, home, programs, page):
        self.home, self.programs, self.page = home, programs, page

    # ---- asking

    def _ask(self, call, **parts):
        return self._heard(call, self.programs.ask(call, **parts), parts["book"])

    def _heard(self, call, reply, book):
        """The reply's parts; a refusal is shown, and is the end."""
        parts = replies.taken_apart(call, reply)
        if "number" in parts:
            self._refused(reply, parts["number"], parts["place"], book)
        return reply, parts

    def _refused(self, reply, number, place, book):
        self.page.show(reply, result="refused", refusal=number, place=place)
        self.page.say(replies.sentence(self.home, number, place))
        if number == 8:
            rule = replies.taken_apart("s", self.programs.ask("s", book=book))["rules"][place]
            self.page.facts["rule"] = rule
            self.page.say(f"rule {place}: {rule['left']} -> {rule['right']}")
        raise End(REFUSED)

    def _clears(self, book, ranks):
        """Whether the proved check accepts the ranks."""
        return self.programs.ask("c", book=book, text=ranks) == b"cleared\n"

    def _read_book(self, name):
        book = files.read(name)
        self.page.show(b"", book={"file": name, "bytes": len(book.data), "sha256": book.sum})
        return book

    def _read_ranks(self, name, book):
        """Ranks, and whether they were made for this book, where that is known."""
        ranks = files.read(name)
        whose = self._whose(ranks, book)
        self.page.show(b"", ranks_of=whose)
        if whose == "another book":
            self.page.say(f"note: {name} was made for another book, or for this one before it was changed: {name}.of has its sum. "
                          "What follows is of the book as it is now")
        if whose == "changed":
            self.page.say(f"note: {name} is not as `clear` wrote it: {name}.of has its sum")
        return ranks

    def _whose(self, ranks, book):
        if not ranks.is_plain or not os.path.isfile(ranks.name + ".of"):
            return "not known"
        sums = re.findall(r"(?m)^([0-9a-f]{64})  ", files.read(ranks.name + ".of").data.decode("utf-8", "replace"))
        if len(sums) != 2:
            return "not known"
        if sums[0] != book.sum:
            return "another book"
        return "this book" if sums[1] == ranks.sum else "changed"

    # ---- clearing

    def clear(self, words, options):
        book = self._read_book(words[0])
        target = self._target(book, [book], options)
        found, sheet_file = None, options.get("--sheet")
        if sheet_file:
            files.may_become(sheet_file, [book], "--sheet FILE")
            if target and os.path.abspath(sheet_file) in (os.path.abspath(target), os.path.abspath(target + ".of")):
                raise broken(f"{sheet_file} is where the ranks go; --sheet FILE names another place")
        try:
            _, head = self._heard("clause_file", cnf := self.programs.clause_file(book.data), book.data)
            found = solvers.find(options.get("--solver"), solvers.install_by_apt, self.page.say_now)
            self.page.show(b"", solver={"name": found.name, "words": list(found.start)}, clause_file=head["header"])
            answer = solvers.solve(found, cnf, options["--limit"])
            reply, ranks = self._ranks(book, answer.text)
        except End as end:
            if self.page.facts.get("refusal") == 13:
                self.page.say(f"{found.name} ended with status {answer.status}")
            self._older_ranks(target, book.data)
            raise end
        self._keep(book, target, ranks, reply, found.name)
        if sheet_file:
            self._write_sheet(sheet_file, book, ranks, found)
        return DONE

    def _write_sheet(self, name, book, ranks, found):
        _, shown = self._ask("s", book=book.data)
        cleared = sheet.Cleared(book, ranks, shown, found.name, solvers.version(found), self.programs.built)
        files.put(name, sheet.page(cleared).encode("utf-8", "replace"), "--sheet FILE")
        self.page.show(b"", sheet=name)
        self.page.say(f"the clearance sheet is {name}")

    def answer(self, words, options):
        book = self._read_book(words[0])
        given = self._read_answer(words[1])
        target = self._target(book, [book, given], options)
        try:
            reply, ranks = self._ranks(book, given.data)
        except End as end:
            self._older_ranks(target, book.data)
            raise end
        self._keep(book, target, ranks, reply, "the solver")
        return DONE

    def _read_answer(self, name):
        """An answer as it stands, so that a refusal's place is one of the file; a longer one without its c lines."""
        printed = solvers.Printed()
        given = files.read(name, most=1 << 26, take=printed)
        if len(given.data) <= solvers.ANSWER_MOST:
            return given
        self.page.say("the answer is longer than 65,536 bytes; its c lines are left out, and a place counts without them")
        return given._replace(data=bytes(printed.text))

    def _target(self, book, inputs, options):
        """Where the ranks go; None where the book is no file and none is named."""
        name = options.get("--ranks")
        if name is None and not book.is_plain:
            return None
        name = name or book.name + ".ranks"
        for each in (name, name + ".of"):
            files.may_become(each, inputs, "--ranks FILE")
        return name

    def _ranks(self, book, text):
        """The ranks of an answer, which the proved reader has checked."""
        reply, parts = self._ask("a", book=book.data, text=text)
        return reply, bytes(parts["ranks"])

    def _keep(self, book, target, ranks, reply, whose):
        """Writes ranks that were checked, and checks what was written against the book as it now stands under its name."""
        if not self._clears(book.data, ranks):
            raise broken("the ranks were spoilt on the way from the answer; nothing was written")
        if target is not None:
            self._write(book, target, ranks)
        self.page.show(reply, result="cleared", ranks=list(ranks), order=replies.levels(ranks), ranks_file=target)
        where = f"they are in {target}" if target else "they are in no file, as the book is none; --ranks FILE names one"
        self.page.say(f"{whose} proposes these ranks and the proved check accepts them: every record comes to rest; {where}")
        self._say_order(ranks)

    def _write(self, book, target, ranks):
        """Leaves ranks that were made sure of, or none; where none can be written, those from before are told."""
        with signals_wait():
            try:
                files.put(target, ranks, "--ranks FILE")
            except End as end:
                self._older_ranks(target, book.data)
                raise end
            try:
                self._make_sure(book, target, ranks)
            except BaseException:
                for each in (target, target + ".of"):
                    files.remove(each)
                raise

    def _make_sure(self, book, target, ranks):
        sums = ((book.sum, book.name), (hashlib.sha256(ranks).hexdigest(), target))
        lines = "".join(f"{total}  {os.path.basename(name)}\n" for total, name in sums)
        files.put(target + ".of", lines.encode("utf-8", "surrogateescape"), "--ranks FILE")
        now = files.read(book.name) if book.is_plain else book
        if now.data != book.data:
            raise broken(f"{book.name} was changed while it was being cleared; no ranks are left. Clear it again")
        if not self._clears(now.data, files.read(target).data):
            raise broken(f"{target} does not hold the ranks that were written, and is removed")

    def _say_order(self, ranks):
        if ranks:
            self.page.say(f"as an order: {replies.order(ranks)} (names with a comma between them have equal ranks and are unrelated)")

    def _older_ranks(self, target, book):
        """Ranks from before must not be taken for a clearance of a book that was not cleared: the proved check says what they are."""
        try:
            if target is None or not stat.S_ISREG(os.lstat(target).st_mode):
                return
        except OSError:
            return
        if self._clears(book, files.read(target).data):
            self.page.show(b"", older_ranks="clear the book")
            self.page.say(f"note: {target} is from before; the proved check accepts it for the book as it is now")
            return
        aside = files.set_aside(target)
        files.remove(target + ".of")
        self.page.show(b"", older_ranks="do not clear the book")
        now = f"it is now {aside}" if aside else "it could not be renamed: remove it"
        self.page.say(f"note: {target} is from before and does NOT clear this book; {now}")

    # ---- the others

    def check(self, words, _options):
        book = self._read_book(words[0])
        ranks = self._read_ranks(words[1], book)
        reply, _ = self._ask("c", book=book.data, text=ranks.data)
        self.page.show(reply, result="cleared", ranks=list(ranks.data), order=replies.levels(ranks.data))
        self.page.say(RESTS)
        self._say_order(ranks.data)
        return DONE

    def run(self, words, options):
        book = self._read_book(words[0])
        ranks = self._read_ranks(words[1], book)
        record = files.read(words[2])
        reply, parts = self._ask("r", number=options["--budget"], book=book.data, text=ranks.data, record=record.data)
        if "--trace" in options:
            self._trace(parts["steps"], book=book.data, text=ranks.data, record=record.data)
        self.page.show(reply, **parts)
        status, sentence = {
            "done": (DONE, "no rule fits any more"),
            "spent": (SPENT, f"the budget, {options['--budget']}, is used and a rule still fits; --budget gives it more"),
            "too large": (TOO_LARGE, "the next term would have more than 256 nodes"),
        }[parts["result"]]
        self.page.say(sentence)
        return status

    def _trace(self, steps, record, **parts):
        """Each term before a step is that of a run with a smaller budget; the program tells the rule and the place that the step takes."""
        trace = []
        while len(trace) < steps:
            budgets = range(min(TRACED_TOGETHER, steps - len(trace)) + 1)
            ran = self.programs.ask_all([("r", {"number": budget, "record": record, **parts}) for budget in budgets])
            terms = replies.all_taken_apart("r", len(budgets), ran)
            records = [bytes.fromhex(term["bytes"]) for term in terms]
            told = self.programs.ask_all([("n", {"record": each, **parts}) for each in records[:-1]])
            for term, step, line in zip(terms, replies.all_taken_apart("n", len(records) - 1, told), told.splitlines(keepends=True)):
                if "rule" not in step:
                    raise broken("the program's replies do not agree: a step was made, and the next question has none")
                self.page.show(f"term {term['term']}\n".encode() + line)
                trace.append({"term": term["term"], "rule": step["rule"], "place": step["at"]})
            record = records[-1]
        self.page.show(b"", trace=trace)

    def argument(self, words, _options):
        book = self._read_book(words[0])
        record = files.read(words[1])
        reply, parts = self._ask("q", number=words[2], book=book.data, record=record.data)
        self.page.show(reply, result="argument", **parts)
        return DONE

    def show(self, words, _options):
        book = self._read_book(words[0])
        reply, parts = self._ask("s", book=book.data)
        self.page.show(reply, result="book", symbols=parts["symbols"], rules=parts["rules"])
        return DONE

    def clauses(self, words, _options):
        book = self._read_book(words[0])
        file, parts = self._heard("clause_file", self.programs.clause_file(book.data), book.data)
        self.page.show(file, result="clause file", **parts, file=file.decode("ascii"))
        return DONE

    def refusals(self, _words, _options):
        rows = [(number, meaning.replace("%P", "P"), advice) for number, (meaning, advice) in replies.refusals(self.home).items()]
        text = "".join(f"{number:2}  {meaning}: {advice}\n" for number, meaning, advice in rows)
        self.page.show(text.encode(), refusals=[dict(zip(("number", "meaning", "advice"), row)) for row in rows])
        return DONE

    # ---- a book from text

    def make(self, words, options):
        text = files.read(words[0], most=1 << 20)
        book, record = source.read(text.data.decode("utf-8", "replace"))
        stem = os.path.basename(words[0]).removesuffix(".txt")
        if words[0] == "-" and "--to" not in options:
            raise broken("text from standard input needs --to NAME")
        stem = options.get("--to") or os.path.join(os.path.dirname(words[0]), stem)
        targets = [(stem + ".book", book.data)] + ([(stem + ".record", record.data)] if record else [])
        for name, _ in targets:
            files.may_become(name, [text], "--to NAME")
        shown = self._shown_back(book)
        if record:
            self._record_back(book.data, record)
        for name, data in targets:
            files.put(name, data, "--to NAME")
        self.page.show(shown, result="made", files=[name for name, _ in targets])
        self.page.say("what stands above is how the proved reader reads it; written: " + ", ".join(name for name, _ in targets))
        return DONE

    def _shown_back(self, book):
        """The proved reader's text of the book, which must be the text that the book was made from."""
        reply = self.programs.ask("s", book=book.data)
        parts = replies.taken_apart("s", reply)
        if "number" in parts:
            line = book.lines[min(parts["place"], len(book.lines) - 1)]
            self.page.say(f"line {line}: the book that this text makes is refused")
            self._refused(reply, parts["number"], parts["place"], book.data)
        back = [line for line in reply.decode().splitlines() if not line.startswith("rules ")]
        for was, now in itertools.zip_longest(book.shown, back):
            if was != now:
                raise broken(f"the text says `{was}`, and a reader would take it for `{now}`; nothing was written")
        return reply

    def _record_back(self, book, record):
        """The record's text, from the proved reader's arguments of its root, must be the text that it was made from."""
        arguments = []
        while True:
            reply = self.programs.ask("q", number=len(arguments), book=book, record=record.data)
            parts = replies.taken_apart("q", reply)
            if parts.get("number") == 15:
                break
            if "number" in parts:
                self._refused(reply, parts["number"], parts["place"], book)
            arguments.append(parts["term"])
        now = f"f{record.data[1]}" + (f"({','.join(arguments)})" if arguments else "")
        if now.replace(" ", "") != record.shown[0]:
            raise broken(f"the text says `record {record.shown[0]}`, and a reader would take it for `record {now}`; nothing was written")
