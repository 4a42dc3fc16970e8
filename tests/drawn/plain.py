"""Holds the log of drawn sessions beside a plain list of its removals, in which each question is answered by looking at all of them:
what a withdrawal leaves, which constraints an explanation has, and which removals it rests on, by their places.
"""

import re

# The lines of a drawn session that change its problem. Each has one line for a reply.
CHANGES = ("var", "add", "relax", "enforce", "retract")
# How many of the removals are explained behind each change: the last ones, which rest on most.
ASKED = 2


class PlainLog:
    """Removals in their order: the pair, the constraint, and the pairs for which it was made."""

    def __init__(self, lines):
        self.removals = [self.parted(line) for line in lines]

    @staticmethod
    def parted(line):
        removed, reasons = (line.split(" from ") + [""])[:2]
        pair, constraint = removed.split(" by ")
        return pair, constraint, [reason for reason in reasons.split(", ") if reason]

    def is_linked(self):
        """Whether no pair stands twice, and each reason is an earlier one."""
        earlier = set()
        for pair, _, reasons in self.removals:
            if pair in earlier or not earlier.issuperset(reasons):
                return False
            earlier.add(pair)
        return True

    def without(self, constraint):
        """The removals that do not rest on the constraint."""
        lost = set()
        for pair, by, reasons in self.removals:
            if by == constraint or lost.intersection(reasons):
                lost.add(pair)
        return [removal for removal in self.removals if removal[0] not in lost]

    def needed(self, pair):
        """The removal of the pair and those on which it rests, in their order."""
        wanted, found = {pair}, []
        for removal in reversed(self.removals):
            if removal[0] in wanted:
                wanted.update(removal[2])
                found.insert(0, removal)
        return found


def steps_of(removals):
    """How a certificate tells these removals: each by its number, and its reasons by theirs."""
    numbers = {pair: number for number, (pair, _, _) in enumerate(removals, 1)}
    steps = []
    for pair, by, reasons in removals:
        words = map(str, sorted(numbers[reason] for reason in reasons))
        steps.append(" ".join([f"step {pair} by {by}", *(["from", *words] if reasons else [])]))
    return steps


class Talk:
    """Asks the program line by line of a session."""

    def __init__(self, program):
        self.stream, self.sink = program.stdout, program.stdin

    def read(self):
        line = self.stream.readline()
        if not line:
            raise EOFError("the program ended")
        return line.rstrip("\n")

    def line(self, line):
        """The first line of the reply."""
        self.sink.write(line + "\n")
        self.sink.flush()
        return self.read()

    def lines(self, line):
        """The lines of the reply, but for its end."""
        replies = [self.line(line)]
        if re.match("error|paused|present|contradiction", replies[0]):
            return []
        while replies[-1] != "end":
            replies.append(self.read())
        return replies[:-1]

    def log(self):
        return PlainLog(self.lines("log"))


def fault_of_change(talk, line):
    """Makes the change, and tells what is wrong with the log behind it, if anything is."""
    word, *names = line.split()
    before = talk.log()
    is_refused = talk.line(line).startswith("error")
    left = before.without(names[0]) if word in ("relax", "retract") and not is_refused else before.removals
    return None if talk.log().removals[: len(left)] == left else f"other removals are left behind {line}"


def fault_of_answers(talk):
    """What is wrong with the log, or with what is told of its last removals, if anything is."""
    log = talk.log()
    if not log.is_linked():
        return "a removal stands before one of its reasons"
    for pair, _, _ in log.removals[-ASKED:]:
        needed = log.needed(pair)
        word, *names = talk.line(f"why {pair}").split()
        if word == "contradiction":
            continue
        if len(names) != len(set(names)) or set(names) != {by for _, by, _ in needed}:
            return f"other constraints explain {pair}"
        steps = [line for line in talk.lines(f"cert {pair}") if line.startswith("step ")]
        if steps != steps_of(needed):
            return f"the certificate of {pair} has other steps"
    return None


def first_fault(program, lines):
    """What is first wrong with the log of the session, if anything is."""
    talk = Talk(program)
    for line in lines:
        if line.startswith("palm"):
            talk.line(line)
        elif line.startswith(CHANGES):
            fault = fault_of_change(talk, line) or fault_of_answers(talk)
            if fault:
                return fault
    return None
