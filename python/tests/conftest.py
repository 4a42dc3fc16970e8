"""Which tests are skipped: all without a program, and the longest with a slow one."""

from __future__ import annotations

import os
from typing import List

import pytest

from common import is_fast, program


def pytest_configure(config: pytest.Config) -> None:
    if program():
        os.environ["PALM"] = program()
    config.addinivalue_line("markers", "long: too much for the preview")


def pytest_collection_modifyitems(items: List[pytest.Item]) -> None:
    if not program():
        skip = pytest.mark.skip(reason="no program palm")
    elif not is_fast():
        skip = pytest.mark.skip(reason="too long for the preview")
        items = [item for item in items if item.get_closest_marker("long")]
    else:
        return
    for item in items:
        item.add_marker(skip)
