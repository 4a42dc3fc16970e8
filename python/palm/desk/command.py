"""palm-desk [FILE] [--port N]: serves the desk on 127.0.0.1 and prints the address that opens it.

FILE is a session file that is opened at the start. Status: 0 at the end by Ctrl-C, 2 for other words, 3 where FILE cannot be read,
the port is taken, or the program or aiohttp is not there.
"""

from __future__ import annotations

import argparse
import asyncio
import sys
from pathlib import Path
from typing import List, Optional

from palm.errors import PalmError


def main(given: Optional[List[str]] = None) -> int:
    """The command, with its words."""
    words = parser().parse_args(given)
    try:
        from palm.desk.desk import Desk
        from palm.desk.server import listen, serve
    except ModuleNotFoundError as error:
        print(f"palm-desk: no {error.name}: install python3-aiohttp, or the extra palm[desk]", file=sys.stderr)
        return 3
    try:
        listening = listen(words.port)
        desk = Desk()
        if words.file:
            desk.open(Path(words.file).name, Path(words.file).read_bytes())
    except (OSError, OverflowError, PalmError) as error:
        print(f"palm-desk: {error}", file=sys.stderr)
        return 3
    try:
        asyncio.run(serve(desk, listening, lambda address: print(address, flush=True)))
    except KeyboardInterrupt:
        pass
    return 0


def parser() -> argparse.ArgumentParser:
    """What the words may be."""
    words = argparse.ArgumentParser(prog="palm-desk", description="See a session's domains, and why a value is gone, in a browser.")
    words.add_argument("file", nargs="?", metavar="FILE", help="a session file to open")
    words.add_argument("--port", type=int, default=0, metavar="N", help="the port on 127.0.0.1; a free one where none is given")
    return words


if __name__ == "__main__":
    sys.exit(main())
