"""The words after `rulebook`: commands, their files and options, and their help."""
import os
import resource
from typing import NamedTuple

from desk import files
from desk.commands import Desk
from desk.ends import DONE, MISUSED, End, Stopped, die_of, heed_signals
from desk.page import Page
from desk.programs import Programs


class Command(NamedTuple):
    words: tuple
    options: tuple
    brief: str
    help: str


RANKS_HELP = """\
      --ranks FILE       written in place of BOOK.ranks; beside it stands FILE.of with the sums (SHA-256) of the book and the
                         ranks. A link, a device, a folder, or a file that is read is never replaced
"""

COMMANDS = {
    "clear": Command(("BOOK",), ("--solver", "--limit", "--ranks", "--sheet"), "asks a SAT solver for ranks, and checks them", """\
Asks a SAT solver for ranks and has the proved check decide on them. Ranks that clear the book are printed and written to
BOOK.ranks. Where the book is not cleared and there is a BOOK.ranks from before, that is checked too and, if it does not
clear the book, renamed to BOOK.ranks.stale.
      --solver COMMAND   cadical, cryptominisat5, picosat, minisat, clasp, z3 or sat4j (the first that is installed), or any
                         program that takes a DIMACS file and prints s and v lines; with words of its own, as 'kissat -q'
      --limit SECONDS    for the solver (60)
""" + RANKS_HELP + """\
      --sheet FILE       a clearance sheet too: one page of HTML to be read or printed
JSON: result, ranks, order (the symbols from the highest rank down, those of one rank together), ranks_file, solver, clause_file,
book (file, bytes, sha256), sheet, older_ranks.
"""),
    "check": Command(("BOOK", "RANKS"), (), "checks ranks, one byte a symbol", """\
Has the proved check decide whether the ranks, one byte a symbol, make every rule decrease. It says so if RANKS.of shows that
they were made for another book. JSON: result, ranks, order, ranks_of (this book, another book, changed, not known), book.
"""),
    "run": Command(("BOOK", "RANKS", "RECORD"), ("--budget", "--trace"), "runs a record under a book that the ranks clear", """\
Applies rules to the record until none fits. `done`: none fits any more (status 0). `spent`: the budget is used and a rule
still fits (status 3). `too large`: the next term would have more than 256 nodes (status 4).
      --budget STEPS     at most so many (1000000)
      --trace            before that, for each step the term and `step rule R at P`: rule R was applied to the subterm whose
                         first byte is byte P of the term's record
JSON: result, steps, nodes, term, bytes, ranks_of, book, and with --trace trace (term, rule, place).
"""),
    "argument": Command(("BOOK", "RECORD", "NUMBER"), (), "argument NUMBER, from 0, of the record's root", """\
Prints where argument NUMBER, from 0, of the record's root starts, and the argument. JSON: result, start, nodes, term, bytes, book.
"""),
    "show": Command(("BOOK",), (), "the book's symbols and rules", """\
Prints the book's symbols with their arities, and its rules: f1 is symbol 1, x0 is variable 0. JSON: result, symbols (name, arity),
rules (number, left, right), book.
"""),
    "make": Command(("TEXT",), ("--to",), "a book, and perhaps a record, from text as `show` prints it", """\
Makes a book of lines as `show` prints them, and a record of a line `record`:

      symbols f0/0 f1/1        each symbol with its arity, numbered from 0
      rule 0: f1(x0) -> x0     a line a rule, numbered from 0
      record f1(f0)

and writes NAME.book and NAME.record for NAME.txt. Text behind # is passed over. Nothing is written unless the proved reader
reads the book back as the text that it was made from.
      --to NAME          written in place of NAME.book and NAME.record of the text's own name
JSON: result, files.
"""),
    "clauses": Command(("BOOK",), (), "prints the book's clause file, for a solver elsewhere", """\
Prints the book's clause file in DIMACS CNF, for a solver elsewhere. JSON: result, header, variables, clauses, file, book.
"""),
    "answer": Command(("BOOK", "ANSWER"), ("--ranks",), "reads what that solver printed, and goes on as clear does", """\
Reads the s and v lines that a solver printed for the book's clause file, and goes on as `clear` does. Of an answer longer than
65,536 bytes the c lines are left out.
""" + RANKS_HELP),
    "refusals": Command((), (), "every refusal: what it means, and what to do", "Prints every refusal: what it means, and what to do.\n"),
}

# Options without a value.
FLAGS = ("--trace",)

HEAD = "rulebook: clears rule books, and runs records under them\n"
FOOT = """
  help [COMMAND], COMMAND --help, --version

With --json every command prints one JSON object: status, says (the sentences), the fields that its help names, or refusal, place
and for refusal 8 rule, or error. A file named - is standard input (the file - itself is ./-); behind -- every word is a file.
A refusal is the line `refused N at P` on standard output, and a sentence on standard error.
Status: 0 a result; 1 refused; 2 used wrongly, or a file could not be read or written, or a program is missing; 3 the budget
is spent; 4 the term is too large; 5 the solver's time is up.
"""


def overview():
    width = max(len(f"{name} {' '.join(command.words)}") for name, command in COMMANDS.items())
    rows = (f"  {name + ' ' + ' '.join(command.words):{width}}  {command.brief}\n" for name, command in COMMANDS.items())
    return HEAD + "\n" + "".join(rows) + FOOT


def help_on(name):
    command = COMMANDS[name]
    words = " ".join((name, *command.words, *(f"[{option}]" if option in FLAGS else f"[{option} ..]" for option in command.options), "[--json]"))
    return f"rulebook {words}\n\n{command.help}"


def misused(sentence):
    return End(MISUSED, f"{sentence} (rulebook help says how)")


# ---- taking the words

def _number(text, sentence, least=0, most=2**64 - 1):
    if not (text.isascii() and text.isdigit() and len(text) <= 20 and least <= int(text) <= most):
        raise misused(sentence)
    return int(text)


def _value(option, text):
    if option == "--limit":
        return _number(text, "--limit is a number of seconds, 1 or more", least=1, most=10**9 - 1)
    if option == "--budget":
        return _number(text, "--budget is a number of steps, 0 to 2^64 - 1")
    if not text:
        raise misused(f"{option} needs a value")
    return text


def _taken(name, words):
    """The words that are no options, and the options, with what they are if not said."""
    command, files_named, options = COMMANDS[name], [], {"--limit": 60, "--budget": 1000000}
    words = iter(words)
    for word in words:
        if word == "--":
            files_named += words
        elif word.startswith("-") and word != "-":
            option, has_value, value = word.partition("=")
            if option not in command.options:
                raise misused(f"{name} takes no option {option}")
            if option in FLAGS:
                if has_value:
                    raise misused(f"{option} takes no value")
                options[option] = True
                continue
            if not has_value:
                value = next(words, None)
                if value is None:
                    raise misused(f"{option} needs a value")
            options[option] = _value(option, value)
        else:
            files_named.append(word)
    return files_named, options


def _complete(name, files_named):
    command = COMMANDS[name]
    if len(files_named) != len(command.words):
        raise misused(f"{name} takes {' '.join(command.words) or 'no files'}, and {len(files_named)} words were given")
    if files_named.count("-") > 1:
        raise misused("only one file can be standard input")
    if name == "argument":
        files_named[2] = _number(files_named[2], "an argument's number is 0 to 2^64 - 1")
    return files_named


# ---- what it was built from

def _show_version(programs, page):
    facts = programs.facts()
    lines = [f"rulebook {facts['version']}"] + [f"{name} {value}" for name, value in facts.items() if name != "version"]
    page.show(("\n".join(lines) + "\n").encode(), **facts)
    return DONE


def _perform(words, home, page):
    programs = Programs(home, page.say_now)
    if not words:
        files.print_error(overview().rstrip("\n"))
        return MISUSED
    name, rest = words[0], words[1:]
    if name == "--version":
        return _show_version(programs, page)
    if name in ("help", "--help", "-h"):
        if not rest:
            page.show(overview().encode(), help=overview())
            return DONE
        name, rest = rest[0], ["--help"]
    if name not in COMMANDS:
        raise misused(f"there is no command {name}")
    if {"--help", "-h"} & set(rest[:rest.index("--")] if "--" in rest else rest):
        page.show(help_on(name).encode(), help=help_on(name))
        return DONE
    files_named, options = _taken(name, rest)
    return getattr(Desk(home, programs, page), name)(_complete(name, files_named), options)


def main(words):
    files.keep_standard_streams()
    heed_signals()
    resource.setrlimit(resource.RLIMIT_CORE, (0, 0))
    home = os.path.dirname(os.path.dirname(os.path.dirname(os.path.realpath(__file__))))
    before = words.index("--") if "--" in words else len(words)
    page = Page("--json" in words[:before])
    try:
        try:
            status = _perform([word for word in words[:before] if word != "--json"] + words[before:], home, page)
        except End as end:
            status = end.status
            if end.sentence:
                page.facts["error"] = end.sentence
                page.say(end.sentence)
        except Exception as error:  # no fault of the desk may look like a refusal
            status = MISUSED
            page.lines = b""
            page.facts["error"] = f"a fault of the desk itself: {error!r}"
            page.say(page.facts["error"])
        return page.close(status)
    except Stopped as stop:
        die_of(stop.number)
        return 128 + stop.number
