"""What to do about a refused line: the rows of docs/SLIPS.md, found by the shape of the line."""

from __future__ import annotations

import csv
import re
from functools import lru_cache
from pathlib import Path
from typing import Dict, List, NamedTuple, Optional

NAMES = set(
    "a b x y z q w day room hour shift size week load rail desk left right price level weight far lost kept total keep "
    "later".split()
)
TOKEN = re.compile(r"[A-Za-z_][A-Za-z0-9_]*|[0-9]+|\.\.|!=|<=|>=|==|=<|<>|//|--|[^ \t]")
FORMS = (
    "var add relax enforce retract domains domain list log why minimal conflict cert pause resume step solve prove minimize prefer "
    "preferred guide order drop quit"
)

GENERAL = {
    "E1": "a line has at most 65,536 bytes, each of them from 32 to 126, or a tab; only a comment may have others",
    "E2": "look the form up in the table of docs/LANGUAGE.md; these begin lines: " + FORMS,
    "E3": "take another name, or retract the constraint that has this one",
    "E4": "declare the variable first; look whether its `var` line was refused",
    "E5": "add the constraint first; look whether its `add` line was refused, or whether it was retracted",
    "E6": "values are from -1,000,000 to 1,000,000; docs/LANGUAGE.md has the ranges of other numbers: count in larger units",
    "E7": "at most 256 values of a variable, 16 variables of a constraint, 64 variables and 256 constraints of a session, and twice "
    "as many of both behind a first line `palm 2`: make several constraints of one, or count in larger units",
    "E8": "name each variable once: add up its coefficients",
    "E9": "the lower end of a range comes first, and a set, a table or an element has at least one entry, and no coefficient is 0",
    "E10": "the line would change nothing, or the session is not in the state for it: ask `list`",
    "E11": "there are the guides 1, 2 and 3 and the orders 1 and 2, as long as they are not dropped",
    "E12": "ask for one of the values that the variable was declared with: `list` shows them",
}


class Slip(NamedTuple):
    """A row of the table: what was written, its reply, what to write instead, and why."""

    written: str
    reply: str
    instead: str
    why: str


@lru_cache(maxsize=None)
def slips() -> List[Slip]:
    """The rows of docs/SLIPS.md."""
    with Path(__file__).with_name("slips.tsv").open(encoding="utf-8", newline="") as file:
        return [Slip(*row) for row in csv.reader(file, delimiter="\t", quoting=csv.QUOTE_NONE)]


def advice(line: str, reply: str) -> str:
    """What to do about a line with this refusal: by the row whose line has the same shape, or else by its code."""
    code = reply.split(" ")[1]
    found = _by_shape(code)
    slip = found.get(shape(line)) or found.get(rough(shape(line)))
    if not slip:
        return GENERAL.get(code, "")
    instead = f"write {slip.instead} and not `{slip.written}`" if slip.instead else f"`{slip.written}` is such a line"
    return f"{instead}: {slip.why}" if slip.why else instead


@lru_cache(maxsize=None)
def _by_shape(code: str) -> Dict[str, Slip]:
    found: Dict[str, Slip] = {}
    for slip in slips():
        if slip.reply.split(" ")[1] == code:
            found.setdefault(shape(slip.written), slip)
            found.setdefault(rough(shape(slip.written)), slip)
    return found


@lru_cache(maxsize=None)
def _words() -> List[str]:
    """The words of the rows that are no names."""
    return [word for slip in slips() for word in TOKEN.findall(slip.written) if word[0].isalpha() and word not in NAMES]


def shape(line: str) -> str:
    """The tokens of a line, with `n` for each name and `0` for each number, and lists of any length as one entry."""
    tokens: List[str] = []
    for word in TOKEN.findall(line[:1000]):
        tokens.append(_kind(word, tokens[-1] if tokens else None))
    text = " ".join(tokens)
    text = re.sub(r"\b([n0])( , \1)+", r"\1 , \1", text)
    return re.sub(r"\bn( n)+", "n n", text)


def rough(shape_of_line: str) -> str:
    """A shape in which a number is as good as a name."""
    return re.sub(r"\b0\b", "n", shape_of_line)


def _kind(word: str, before: Optional[str]) -> str:
    if word.isdigit():
        return "0"
    is_name = word[0].isalpha() or word[0] == "_"
    return "n" if is_name and (before is not None and word not in _words() or before in ("var", "add")) else word
