"""The program of the tests: the one that PALM names, else the built one, else the preview."""

from __future__ import annotations

import os
from pathlib import Path

from hypothesis import settings

ROOT = Path(__file__).resolve().parents[2]
settings.register_profile("palm", database=None, derandomize=True, deadline=None)
settings.load_profile("palm")

EXAMPLES = ROOT / "python" / "examples"


def program() -> str:
    """The program, or nothing."""
    named, previews = os.environ.get("PALM"), ROOT / "out/preview"
    built = [ROOT / "crates/palm/out/palm", *previews.glob("fast-palm-*"), *previews.glob("*-palm-*")]
    places = [Path(named)] if named else built
    return next((str(place) for place in places if os.access(place, os.X_OK) and place.is_file()), "")


def is_fast() -> bool:
    """Whether it looks at none of its accesses to memory: a preview that does takes hundreds of times as long for a search."""
    return b"__asan_init" not in Path(program()).read_bytes()


def drawn(number: int) -> settings:
    """So many examples of a test, and a fifth of them with the preview."""
    return settings(max_examples=number if program() and is_fast() else number // 5)
