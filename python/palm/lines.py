"""Lines as the program reads them: their bytes, their tokens, and where the reply to one ends."""

from __future__ import annotations

import re
from typing import List, Union

Line = Union[str, bytes]

LONGEST = 65_536
BLANKS = b" \t"
MANY = (b"domains", b"list", b"log", b"cert", b"prove")
WHOLE = (b"contradiction", b"paused", b"present", b"consistent")
TOKEN = re.compile(rb"[A-Za-z_][A-Za-z0-9_]*|[0-9]+|\.\.|!=|<=|>=|[^ \t]", re.DOTALL)
REFUSAL = re.compile(rb"error E[0-9]+ ")


def bytes_of(line: Line) -> bytes:
    """The bytes of one line, without its line feed. A text is UTF-8, and bytes that were none pass through it as `surrogateescape`.

    ValueError where there is a line feed in it.
    """
    data = line if isinstance(line, bytes) else line.encode("utf-8", "surrogateescape")
    if b"\n" in data:
        raise ValueError("one line at a time")
    return data


def text_of(line: Line) -> str:
    """The line as a text, for messages."""
    return line if isinstance(line, str) else line.decode("utf-8", "surrogateescape")


def body(data: bytes) -> bytes:
    """The bytes that count: one carriage return at the end belongs to the end of the line."""
    return data[:-1] if data.endswith(b"\r") else data


def has_reply(data: bytes) -> bool:
    """Whether the line gets a reply: all do but comments, and a comment has at most 65,536 bytes."""
    line = body(data)
    first = line.lstrip(BLANKS)[:1]
    return len(line) > LONGEST or first not in (b"", b"#")


def is_refusal(first: bytes) -> bool:
    """Whether a reply begins so as a refusal does. A variable may be called `error`: its line in the log has a number there."""
    return REFUSAL.match(first) is not None


def goes_on(data: bytes, first: bytes) -> bool:
    """Whether lines up to `end` follow the first one of the reply to the line."""
    form = first_word(data)
    if form == b"minimize":
        return first.startswith(b"best ")
    if form == b"preferred":
        return first.split(b" ")[0] == b"keep"
    return form in MANY and first not in WHOLE and not is_refusal(first)


def first_word(data: bytes) -> bytes:
    """The first token of the line, or nothing."""
    match = TOKEN.match(body(data).lstrip(BLANKS))
    return match.group() if match else b""


def tokens(line: Line) -> List[str]:
    """The tokens of an accepted line, which has no bytes but those from 32 to 126 and tabs."""
    return [token.decode("latin-1") for token in TOKEN.findall(body(bytes_of(line)))]
