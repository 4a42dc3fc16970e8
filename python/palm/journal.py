"""What a session holds, by the lines that were taken: enough to make the same session anew, and no more."""

from __future__ import annotations

import re
from typing import Dict, List, Optional, Set, Tuple

from palm.lines import Line, body, bytes_of, has_reply, is_refusal, tokens

CHANGES = ("palm", "var", "add", "relax", "enforce", "retract", "prefer", "pause", "resume", "guide", "order", "drop", "quit")


class Journal:
    """The declared variables, the present constraints with their weights, and what was chosen, dropped and paused.

    `lines()` makes a session with the same variables, constraints and choices, so with the same domains. What was retracted is left
    out, so the constraints may have other numbers, in the same order.
    """

    def __init__(self) -> None:
        self.version: Optional[int] = None
        self.declared: Dict[Tuple[str, str], str] = {}
        self.relaxed: Set[str] = set()
        self.weights: Dict[str, int] = {}
        self.chosen: Dict[str, str] = {"guide": "none", "order": "none"}
        self.dropped: Dict[str, Set[int]] = {"guide": set(), "order": set()}
        self.paused = False
        self.has_ended = False

    def note(self, line: Line, reply: List[bytes]) -> None:
        """Takes a line with its reply into account."""
        if not has_reply(bytes_of(line)):
            return
        words = [] if is_refusal(reply[0]) else tokens(line)
        if self.version is None:
            self.version = 2 if words[:1] == ["palm"] else 1
        if words[:1] in (["var"], ["add"]):
            self.declared[words[0], words[1]] = body(bytes_of(line)).decode("ascii").strip(" \t")
        elif words and words[0] in CHANGES:
            getattr(self, f"_{words[0]}")(words[1:])

    def lines(self) -> List[str]:
        """The lines that make such a session. None of them is refused, and none of them is answered by more than one line."""
        if self.version is None:
            return []
        lines = ["palm 2" if self.version == 2 else "guide none", "pause"]
        lines += self.declared.values()
        lines += [f"relax {name}" for name in sorted(self.relaxed)]
        lines += [f"prefer {name} {weight}" for name, weight in self.weights.items()]
        lines += [f"drop {kind} {number}" for kind in ("guide", "order") for number in sorted(self.dropped[kind])]
        lines += [f"{kind} {number}" for kind, number in self.chosen.items() if number != "none"]
        return lines if self.paused else lines + ["resume"]

    def _palm(self, words: List[str]) -> None:
        """The header says the version and nothing else."""

    def _relax(self, words: List[str]) -> None:
        self.relaxed.add(words[0])

    def _enforce(self, words: List[str]) -> None:
        self.relaxed.discard(words[0])

    def _retract(self, words: List[str]) -> None:
        if not self.declared.pop(("add", words[0]), ""):
            self.declared["var", words[0]] = without_domain(self.declared["var", words[0]])
        self.relaxed.discard(words[0])
        self.weights.pop(words[0], None)

    def _prefer(self, words: List[str]) -> None:
        if words[1] == "none":
            self.weights.pop(words[0], None)
        else:
            self.weights[words[0]] = int(words[1])

    def _pause(self, words: List[str]) -> None:
        self.paused = True

    def _resume(self, words: List[str]) -> None:
        self.paused = False

    def _guide(self, words: List[str]) -> None:
        self.chosen["guide"] = plain(words[0])

    def _order(self, words: List[str]) -> None:
        self.chosen["order"] = plain(words[0])

    def _drop(self, words: List[str]) -> None:
        kind, number = words[0], plain(words[1])
        self.dropped[kind].add(int(number))
        if self.chosen[kind] == number:
            self.chosen[kind] = "none"

    def _quit(self, words: List[str]) -> None:
        self.has_ended = True


def plain(word: str) -> str:
    """A number without leading zeros, or the word itself."""
    return str(int(word)) if word.isdigit() else word


def without_domain(line: str) -> str:
    """A line `var NAME domain in domain` without `in` and what is behind it."""
    name = re.match(r"var[ \t]+\w+", line)
    assert name
    return line[: line.index("in", name.end())].rstrip(" \t")
