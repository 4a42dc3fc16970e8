"""What the commands share: the lines of a file, and what is said where something is not there or ends early."""

from __future__ import annotations

import io
import sys
from typing import Callable, List

from palm.errors import Ended, NotFound, PalmError, Refused
from palm.lines import text_of


def lines_of(path: str) -> List[bytes]:
    """The lines of a file, of any bytes, without their line feeds. OSError where it cannot be read."""
    with open(path, "rb") as file:
        lines = file.read().split(b"\n")
    return lines if lines[-1] else lines[:-1]


def shown(line: bytes) -> str:
    """A line as a terminal can show it: bytes that are no UTF-8 stay what they are."""
    return text_of(line)


def command(name: str, work: Callable[[], int]) -> int:
    """Runs the work and gives its status: 3 where the file or the program is not there, the program's own where it ended early."""
    for stream in (sys.stdout, sys.stderr):
        if isinstance(stream, io.TextIOWrapper):
            stream.reconfigure(errors="surrogateescape")
    try:
        return work()
    except NotFound as error:
        return said(name, str(error), 3)
    except OSError as error:
        return said(name, f"{error.filename}: {error.strerror}" if error.filename else str(error), 3)
    except Ended as error:
        return said(name, str(error), error.status if error.status > 0 else 1)
    except Refused as error:
        return said(name, str(error), 1)
    except PalmError as error:
        return said(name, str(error), 1)
    except KeyboardInterrupt:
        return 130


def said(name: str, text: str, status: int) -> int:
    """Says it on standard error, and gives the status."""
    sys.stdout.flush()
    print(f"{name}: {text}", file=sys.stderr)
    return status
