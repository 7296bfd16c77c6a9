"""The replies of rulebook_pipe and clause_file, taken apart line by line. A reply of another form is not taken."""
import os
import re

from desk.ends import broken

TERM = r"nodes (?P<nodes>\d+)\nterm (?P<term>.*)\nbytes (?P<bytes>[0-9a-f]*)\n"
FORMS = {
    "c": r"(?P<result>cleared)\n",
    "a": r"(?P<result>cleared)\nranks(?P<ranks>( \d+)*)\n",
    "r": r"(?P<result>done|spent|too large)\nsteps (?P<steps>\d+)\n" + TERM,
    "n": r"at rest\n|step rule (?P<rule>\d+) at (?P<at>\d+)\n",
    "q": r"start (?P<start>\d+)\n" + TERM,
    "s": r"symbols(?P<symbols>( f\d+/\d+)*)\nrules (?P<count>\d+)\n(?P<rules>(rule \d+: .* -> .*\n)*)",
    "clause_file": r"(?P<header>p cnf (?P<variables>\d+) (?P<clauses>\d+))\n(?s:.*)",
}
REFUSED = r"refused (?P<number>\d+) at (?P<place>\d+)\n"
CUT_OFF = "cut off\n"
NUMBERS = ("number", "place", "steps", "nodes", "rule", "at", "start", "count", "variables", "clauses")


def taken_apart(call, reply):
    """The named parts of a reply; those of a refusal are `number` and `place`."""
    [parts] = all_taken_apart(call, 1, reply)
    return parts


def all_taken_apart(call, many, reply):
    """The named parts of each of so many replies to one call, one behind the other."""
    text, found, at = reply.decode("ascii", "replace"), [], 0
    for left in range(many, 0, -1):
        form = re.compile(f"(?:{REFUSED}|{FORMS[call]})" + (r"\Z" if left == 1 else ""))
        one = form.match(text, at)
        if not one:
            if text.endswith(CUT_OFF):
                raise broken("the program did not get all that it was sent")
            raise broken(f"the program's reply has no form that is known: {text[at:at + 80]!r}")
        found.append(_parts({name: value for name, value in one.groupdict().items() if value is not None}))
        at = one.end()
    return found


def _parts(parts):
    for name in NUMBERS:
        if name in parts:
            parts[name] = int(parts[name])
    if "ranks" in parts:
        parts["ranks"] = [int(rank) for rank in parts["ranks"].split()]
    if "symbols" in parts:
        parts["symbols"] = [_symbol(word) for word in parts["symbols"].split()]
        parts["rules"] = [_rule(line) for line in parts["rules"].splitlines()]
    return parts


def _symbol(word):
    name, _, arity = word.partition("/")
    return {"name": name, "arity": int(arity)}


def _rule(line):
    number, _, sides = line.removeprefix("rule ").partition(": ")
    left, _, right = sides.partition(" -> ")
    return {"number": int(number), "left": left, "right": right}


# ---- refusals in words

def refusals(home):
    """From a number to what it means and what to do, with %P for the place."""
    with open(os.path.join(home, "bin", "refusals.txt"), encoding="utf-8") as file:
        rows = [line.rstrip("\n").split("|") for line in file]
    return {int(number): (meaning, advice) for number, meaning, advice in rows}


def sentence(home, number, place):
    meaning, advice = refusals(home).get(number, ("a refusal that this desk does not know", "its programs are newer"))
    return f"{meaning}: {advice}".replace("%P", str(place))


# ---- ranks as an order

def levels(ranks):
    """The symbols from the highest rank to the lowest, those of one rank together: they are unrelated."""
    return [[f"f{symbol}" for symbol, rank in enumerate(ranks) if rank == level] for level in sorted(set(ranks), reverse=True)]


def order(ranks):
    """As `f6 > f5, f2 > f0`."""
    return " > ".join(", ".join(level) for level in levels(ranks))
