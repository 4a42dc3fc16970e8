"""A model as a session file for the desk, with comments that say its words, its tasks, and what is in the background."""

from __future__ import annotations

import re
from typing import Iterator, List, Mapping, Optional

from palm.constraints import Task
from palm.expressions import Variable
from palm.model import Model
from palm.replies import Listing


def desk_file(model: Model, tasks: Optional[Mapping[str, Task]] = None) -> str:
    """The text of a session file. `tasks` are the bars of the chart, by name; what stands before a slash in a name is its lane."""
    listing = model.send("list")
    assert isinstance(listing, Listing)
    lines = [*model.session.saved(), *words(model), *background(model, listing)]
    for name, task in (tasks or {}).items():
        if isinstance(task.start, Variable):
            lines.append(f"# tasks {one_word(name)} {task.start.name} {task.length}")
    return "".join(f"{line}\n" for line in lines)


def words(model: Model) -> Iterator[str]:
    """What the values of variables are called that are no numbers."""
    for variable in model.variables.values():
        values = variable.values
        if values.named:
            yield f"# words {variable.name} {' '.join(one_word(str(values.of(code))) for code in values.codes)}"


def background(model: Model, listing: Listing) -> List[str]:
    """Variables that the model made for itself, and constraints of no rule, or of one in the background."""
    own = {variable.name for variable in model.variables.values()}
    shown = {name for rule in model.rules if not rule.background for name in rule.names}
    hidden = [variable.name for variable in listing.variables if variable.name not in own]
    hidden += [constraint.name for constraint in listing.constraints if constraint.name not in shown]
    return [f"# background {' '.join(hidden)}"] if hidden else []


def one_word(text: str) -> str:
    """A text without blanks."""
    return re.sub(r"\s+", "_", text) or "_"
