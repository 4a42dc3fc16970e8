"""What the tests of the desk share: a desk that is served in this process. Without its packages they are skipped."""

from __future__ import annotations

import sys
from pathlib import Path
from typing import TYPE_CHECKING, Iterator, Optional

import pytest

HERE = Path(__file__).resolve().parent
sys.path[:0] = [str(HERE.parents[1]), str(HERE)]

if TYPE_CHECKING:
    from running import Running


@pytest.fixture
def memory() -> Optional[int]:
    """The limit of memory that the program can be given. A preview looks at its own memory, and can be given none."""
    from palm.desk.pool import MEMORY
    from running import is_preview

    return None if is_preview() else MEMORY


@pytest.fixture
def desk(memory: Optional[int]) -> "Iterator[Running]":
    """A desk that is served."""
    from palm.desk.pool import Pool
    from running import Running

    with Running(Pool(memory=memory)) as running:
        yield running
