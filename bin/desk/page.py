"""What a command prints: the proved programs' lines on standard output, the desk's sentences on standard error; or all of it as JSON."""
import json

from desk import files
from desk.ends import MISUSED, End


class Page:
    def __init__(self, as_json):
        self.as_json, self.lines, self.facts, self.said, self.held = as_json, b"", {}, [], []

    def say(self, sentence):
        """A sentence that goes with the lines, and stands behind them."""
        self.said.append(sentence)
        self.held.append(sentence)

    def say_now(self, sentence):
        """What takes a while."""
        self.said.append(sentence)
        files.print_error(f"rulebook: {sentence}")

    def show(self, lines, **facts):
        """A program's lines, and the same as facts."""
        self.lines += lines
        self.facts.update(facts)

    def close(self, status):
        """Prints it; the status that the command then ends with."""
        lines = self.lines
        if self.as_json:
            lines = json.dumps({"status": status, **self.facts, "says": self.said}).encode() + b"\n"
        try:
            files.print_out(lines)
        except End as end:
            status = MISUSED
            self.say(end.sentence)
        for sentence in self.held:
            files.print_error(f"rulebook: {sentence}")
        return status
