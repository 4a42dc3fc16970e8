"""A model of Python on the desk."""

from __future__ import annotations

import pytest

pytest.importorskip("aiohttp", reason="no aiohttp: tools/setup desk installs it")

from running import Running  # noqa: E402

from palm import Model, Task  # noqa: E402
from palm.desk.models import desk_file  # noqa: E402


def test_a_model_is_opened_with_its_words_and_tasks(desk: Running) -> None:
    with Model() as model:
        start = model.var("paint the hall", range(1, 9))
        colour = model.var("colour", ["red", "sky blue"])
        model.add(start >= 3, "dry", weight=4)
        model.add(colour != "red", "taste", background=True)
        text = desk_file(model, {"hall/paint": Task(start, 2)})
    said = desk.call("POST", "/api/sessions", body=text.encode()).said
    assert said["refused"] == [] and said["variables"] == [["paint_the_hall", [[1, 8]], [[2, 7]]], ["colour", [[1, 2]], [[1, 1]]]]
    assert said["notes"]["tasks"] == [{"name": "hall/paint", "start": "paint_the_hall", "length": 2}]
    assert said["notes"]["words"] == {"colour": ["red", "sky_blue"]} and said["notes"]["background"] == ["taste"]
    assert [(row[1], row[4]) for row in said["constraints"]] == [("dry", 4), ("taste", None)]
