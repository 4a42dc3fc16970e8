"""What comment lines of a session say to the desk alone; the program does not look at them.

    # tasks NAME START LENGTH       a bar of the chart: LENGTH, a number or a variable, from the value of the variable START on
    # words PATTERN WORD WORD ..    words for the values of the variables whose names fit, by rising value
    # background NAME NAME ..       variables and constraints of these names, and of NAME_ with more behind it, are folded
"""

from __future__ import annotations

from fnmatch import fnmatchcase
from typing import Any, Dict, List, Sequence


def notes_of(lines: Sequence[bytes], sizes: Dict[str, int]) -> Dict[str, Any]:
    """The notes of the lines, for a session that has variables with so many values each. What fits nothing is left out."""
    tasks: List[Dict[str, Any]] = []
    words: Dict[str, List[str]] = {}
    background: List[str] = []
    for line in lines:
        kind, *rest = line.lstrip(b"# \t").decode("utf-8", "replace").split() or [""]
        if kind == "tasks" and len(rest) == 3 and rest[1] in sizes and (rest[2].isdigit() or rest[2] in sizes):
            tasks.append({"name": rest[0], "start": rest[1], "length": int(rest[2]) if rest[2].isdigit() else rest[2]})
        elif kind == "words" and len(rest) > 1:
            words.update({name: rest[1:] for name, size in sizes.items() if size == len(rest) - 1 and fnmatchcase(name, rest[0])})
        elif kind == "background":
            background.extend(rest)
    return {"tasks": tasks, "words": words, "background": background}
