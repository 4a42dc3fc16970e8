"""A journal that is replayed makes the session that it was noted in: after a kill behind any line, the same domains and choices."""

from __future__ import annotations

import re
from typing import List

from common import drawn
from hypothesis import given
from hypothesis import strategies as st

from palm import Session

NAMES = ["a", "b", "in_1", "end"]
VARIABLES = ["x", "y", "z"]
CONSTRAINTS = [
    "x<y",
    "y != z",
    "sum x + y - z <= 3",
    "table x z : (1,1) (2,3)",
    "differ x y z",
    "count 1 x y=1",
    "x = 2",
    "z in {1,3}",
]
CHANGES = st.one_of(
    st.builds("add {} : {}".format, st.sampled_from(NAMES), st.sampled_from(CONSTRAINTS)),
    st.builds("{} {}".format, st.sampled_from(["relax", "enforce", "retract"]), st.sampled_from(NAMES + VARIABLES)),
    st.builds("prefer {} {}".format, st.sampled_from(NAMES + VARIABLES), st.sampled_from(["3", "07", "none"])),
    st.builds(
        "{} {}".format, st.sampled_from(["guide", "order", "drop guide", "drop order"]), st.sampled_from(["1", "02", "none"])
    ),
    st.sampled_from(
        ["pause", "resume", "step 1", "palm 2", "var v {3,1}in{1}", "var w 1..2 in 2..3", "\tvar  u{1,2} \r", "quit now"]
    ),
)


def state(session: Session) -> List[str]:
    """All that a session shows of itself but the numbers of constraints, the log and kept explanations."""
    listing = [re.sub(r"^\d+ ", "", line) for line in session.ask("list")]
    questions = ["domains", "minimal conflict", "preferred", "minimal x 1", "palm 2", "prove budget 9"]
    return listing + [line for question in questions for line in session.ask(question)] + [str(vars(session.journal))]


@drawn(100)
@given(st.sampled_from(["palm 2", "palm 3", "# first"]), st.lists(CHANGES, max_size=14))
def test_a_replayed_journal_makes_the_same_session(first: str, lines: List[str]) -> None:
    with Session(timeout=60) as session:
        for line in [first, *(f"var {name} 1..3" for name in VARIABLES), *lines]:
            session.ask(line)
        before = state(session)
        session.restart()
        assert state(session) == before
        with Session(timeout=60) as other:
            other.load(session.saved())
            assert state(other)[:-1] == before[:-1]


def test_a_load_that_is_refused_leaves_the_session() -> None:
    with Session(timeout=60) as session:
        session.do("var x 1..3")
        try:
            session.load(["var y 1..2", "add a : q < y"])
        except Exception as error:
            assert "E4" in str(error)
        assert session.domains() == {"x": [1, 2, 3]}
