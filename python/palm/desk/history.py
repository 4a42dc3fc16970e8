"""The journal of a desk's session: the lines that it was opened with, and what was done since, with what was undone."""

from __future__ import annotations

from dataclasses import dataclass, field
from typing import List, Optional, Sequence

HEADER = b"palm 2"


@dataclass
class History:
    """`base` stays; each of `done` is the lines of one action, and so is each of `undone`, the latest last."""

    base: List[bytes] = field(default_factory=lambda: [HEADER])
    done: List[List[bytes]] = field(default_factory=list)
    undone: List[List[bytes]] = field(default_factory=list)

    def note(self, lines: Sequence[bytes]) -> None:
        """An action that was taken. What was undone before it cannot be done again."""
        if lines:
            self.done.append(list(lines))
            self.undone.clear()

    def lines(self) -> List[bytes]:
        """All lines that hold."""
        return self.base + [line for action in self.done for line in action]

    def undo(self) -> bool:
        """Takes the latest action back; says whether there was one."""
        return move(self.done, self.undone)

    def redo(self) -> bool:
        """Takes the action that was undone last again; says whether there was one."""
        return move(self.undone, self.done)

    def text(self) -> bytes:
        """The session file: all lines that hold."""
        return b"".join(line + b"\n" for line in self.lines())


def move(source: List[List[bytes]], target: List[List[bytes]]) -> bool:
    """Moves the last action, where there is one."""
    if not source:
        return False
    target.append(source.pop())
    return True


def label(actions: List[List[bytes]]) -> Optional[str]:
    """What the last action is called: its first line."""
    if not actions:
        return None
    first, *more = actions[-1]
    return first.decode("utf-8", "replace")[:200] + (f" and {len(more)} more" if more else "")
