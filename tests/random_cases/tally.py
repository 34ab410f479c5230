"""How often each answer came."""
import collections
import re


def details(answer):
    """What tells answers of one status apart: the rule, the operation that passes, or the first word of the output."""
    words = answer.err.decode("utf-8", "replace").split()
    if answer.status == 4 and len(words) == 5:
        return words[4]
    if answer.status == 7 and "passed" in words:
        at = words.index("passed")
        return " ".join(words[at + 2:at + 3] + words[at + 4:at + 5])
    if answer.status == 10:
        return " ".join(answer.out.decode().split(" ")[1:2])
    if answer.out.startswith(b"quick"):
        last = answer.out.decode().splitlines()[-1].split(" ")[1:2]
        return "equilibrium " + (last[0] if last and last[0] in ("none", "stopped") else "time")
    return ""


class Tally:
    """Answers by command and status, and what tells them apart."""

    def __init__(self):
        self.statuses = collections.defaultdict(collections.Counter)
        self.details = collections.Counter()

    def add(self, command, answer):
        """One more answer of a command."""
        self.statuses[command][str(answer.status)] += 1
        if details(answer):
            self.details[details(answer)] += 1

    def lines(self):
        """A line for each command, and one of rules and operations."""
        for command, counts in sorted(self.statuses.items()):
            told = ", ".join(f"{status}: {counts[status]}" for status in sorted(counts, key=in_order))
            yield f"{command:22} {sum(counts.values()):6} answers  {told}"
        yield "of these " + ", ".join(f"{name}: {count}" for name, count in sorted(self.details.items(), key=lambda item: in_order(item[0])))


def in_order(word):
    """A key by which numbers in words sort as numbers."""
    return [(0, int(part), "") if part.isdigit() else (1, 0, part) for part in re.split(r"(\d+)", word)]
