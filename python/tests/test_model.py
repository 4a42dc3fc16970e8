"""Models drawn at random beside brute force, which goes through all values and knows what each constraint means by Python alone."""

from __future__ import annotations

import itertools
from typing import Any, Callable, Dict, List, Tuple

import pytest
from common import drawn
from hypothesis import given
from hypothesis import strategies as st

from palm import Constraint, LimitError, Model, ModelError, Refused, count, differ, either, element, implies, no_overlap, table

Row = Tuple[int, ...]
Said = Tuple[Constraint, Callable[[Row], bool]]
RELATIONS: List[Callable[[Any, Any], Any]] = [
    lambda a, b: a <= b,
    lambda a, b: a < b,
    lambda a, b: a >= b,
    lambda a, b: a > b,
    lambda a, b: a == b,
    lambda a, b: a != b,
]
NUMBERS = st.integers(-3, 6)
relations = st.sampled_from(RELATIONS)


class Drawn:
    """A model of four variables, of which the last one has names, and what was said of it."""

    def __init__(self, sets: List[List[int]]) -> None:
        self.model = Model(timeout=60)
        self.sets = sets
        self.x = [self.model.var(f"x {place}", values) for place, values in enumerate(sets)]

    def rows(self, predicates: List[Callable[[Row], bool]]) -> List[Row]:
        return [row for row in itertools.product(*self.sets) if all(predicate(row) for predicate in predicates)]


@st.composite
def sums(draw: st.DrawFn, drawn: Drawn) -> Said:
    factors, relation, right = draw(st.lists(st.integers(-3, 3), min_size=3, max_size=3)), draw(relations), draw(NUMBERS)
    if not any(factors):
        factors = [1, 0, 0]
    left = sum(factor * variable for factor, variable in zip(factors, drawn.x))
    return relation(left, right), lambda row: relation(sum(f * v for f, v in zip(factors, row)), right)


@st.composite
def comparisons(draw: st.DrawFn, drawn: Drawn) -> Said:
    (one, other), offset, relation = draw(st.permutations(range(3)))[:2], draw(NUMBERS), draw(relations)
    return relation(drawn.x[one] + offset, drawn.x[other]), lambda row: relation(row[one] + offset, row[other])


@st.composite
def several(draw: st.DrawFn, drawn: Drawn) -> Said:
    offsets, value, relation, number = (
        draw(st.lists(st.integers(0, 2), min_size=3, max_size=3)),
        draw(NUMBERS),
        draw(relations),
        draw(st.integers(0, 3)),
    )
    if draw(st.booleans()):
        shifted = [variable + offset for variable, offset in zip(drawn.x, offsets)]
        return differ(shifted), lambda row: len({v + o for v, o in zip(row, offsets)}) == 3
    return relation(count(drawn.x, value), number), lambda row: relation(row.count(value), number)


@st.composite
def entries(draw: st.DrawFn, drawn: Drawn) -> Said:
    place, other, relation = draw(st.integers(0, 2)), draw(st.integers(0, 2)), draw(relations)
    owned = {value: draw(NUMBERS) for value in drawn.sets[place]}
    return relation(element(drawn.x[place], owned), drawn.x[other] + 1), lambda row: relation(owned[row[place]], row[other] + 1)


@st.composite
def sets(draw: st.DrawFn, drawn: Drawn) -> Said:
    rows, values = draw(st.sets(st.tuples(NUMBERS, NUMBERS), max_size=6)), draw(st.sets(NUMBERS, max_size=4))
    if draw(st.booleans()):
        return table(drawn.x[:2], rows), lambda row: row[:2] in rows
    return drawn.x[2].isin(values), lambda row: row[2] in values


@st.composite
def distances(draw: st.DrawFn, drawn: Drawn) -> Said:
    (one, other), distance, relation = draw(st.permutations(range(3)))[:2], draw(st.integers(0, 4)), draw(relations)
    return relation(abs(drawn.x[one] - drawn.x[other]), distance), lambda row: relation(abs(row[one] - row[other]), distance)


def simple(drawn: Drawn) -> st.SearchStrategy[Said]:
    return st.one_of(sums(drawn), comparisons(drawn), several(drawn), entries(drawn), sets(drawn), distances(drawn))


@st.composite
def joined(draw: st.DrawFn, drawn: Drawn) -> Said:
    (one, is_one), (other, is_other) = draw(simple(drawn)), draw(simple(drawn))
    kind = draw(st.integers(0, 5))
    if kind == 0:
        return either(one, other), lambda row: is_one(row) or is_other(row)
    if kind == 1:
        return implies(one, other), lambda row: not is_one(row) or is_other(row)
    if kind == 2:
        return ~(one & other), lambda row: not (is_one(row) and is_other(row))
    if kind == 3:
        return one + 2 * other <= 2, lambda row: is_one(row) + 2 * is_other(row) <= 2
    if kind == 4:
        return either(one, other, drawn.x[0] == 1), lambda row: is_one(row) or is_other(row) or row[0] == 1
    return one & other, lambda row: is_one(row) and is_other(row)


@st.composite
def problems(draw: st.DrawFn) -> Tuple[Drawn, List[Said]]:
    drawn = Drawn([sorted(draw(st.sets(NUMBERS, min_size=1, max_size=5))) for _ in range(3)])
    return drawn, draw(st.lists(st.one_of(simple(drawn), joined(drawn)), min_size=1, max_size=4))


@drawn(150)
@given(problems(), st.lists(st.sampled_from([-400, -3, -1, 0, 2, 90]), min_size=3, max_size=3))
def test_solutions_and_optima_are_those_of_brute_force(problem: Tuple[Drawn, List[Said]], factors: List[int]) -> None:
    drawn, said = problem
    wanted = drawn.rows([predicate for _, predicate in said])
    with drawn.model as model:
        for constraint, predicate in said:
            rule = model.add(constraint)
            assert all(constraint.holds(dict(zip(drawn.x, row))) == predicate(row) for row in drawn.rows([])), rule.label
        found = model.solutions(200, seconds=60)
        assert sorted(tuple(one[variable] for variable in drawn.x) for one in found) == wanted and found.complete
        objective = sum(factor * variable for factor, variable in zip(factors, drawn.x)) + 5
        least, most = model.minimize(objective, seconds=60), model.maximize(objective, seconds=60)
    values = [5 + sum(f * v for f, v in zip(factors, row)) for row in wanted]
    assert (least.outcome, most.outcome) == (("best", "best") if values else ("none", "none"))
    assert not values or (least.value, most.value) == (min(values), max(values))


@drawn(100)
@given(problems())
def test_explanations_and_conflicts_hold(problem: Tuple[Drawn, List[Said]]) -> None:
    drawn, said = problem
    with drawn.model as model:
        meaning = {id(model.add(constraint, f"rule {number}")): predicate for number, (constraint, predicate) in enumerate(said)}

        def rows(rules: Any) -> List[Row]:
            return drawn.rows([meaning[id(rule)] for rule in rules])

        conflict, minimal = model.conflict(), model.minimal()
        if conflict is not None and minimal is not None:
            assert not rows(conflict) and not rows(minimal) and set(minimal) <= set(conflict)
            with model.without(minimal[0]):
                assert model.conflict() is None or set(model.minimal() or ()) != set(minimal)
            return
        for place, variable in enumerate(drawn.x):
            for value in drawn.sets[place]:
                check_value(model, variable, value, lambda rules: [row for row in rows(rules) if row[place] == value])
        answer = model.solve(seconds=60, proof=True)
        assert answer or answer.proof and not rows(answer.rules)


def check_value(model: Model, variable: Any, value: int, rows: Callable[[Any], List[Row]]) -> None:
    """The rules of an explanation allow the value in no solution, and so do those of a minimal one, of which each is needed."""
    why, explanation, minimal = model.why(variable, value), model.explain(variable, value), model.minimal(variable, value)
    assert (why is None) == (explanation is None) == (minimal is None) == (value in model.domain(variable))
    if why is None or minimal is None:
        return
    assert not rows(why) and not rows(minimal) and set(minimal) <= set(why)
    for rule in minimal:
        with model.without(*(other for other in model.rules if other not in minimal), rule):
            assert value in model.domain(variable)
    assert explanation and set(explanation.rules) == set(why) and str(explanation).startswith(f"{variable.label} is not {value}: ")
    assert model.certificate(variable, value) is not None


def test_names_and_what_belongs_to_them() -> None:
    with Model() as model:
        first, second = model.var("the first", ["red", "green"]), model.var("the 2nd!", ("green", "blue", "red"))
        price = element(second, {"red": 5, "green": 7, "blue": 9})
        same = model.add(first == second, "the same colour")
        dear = model.add(price >= 6, "dear")
        assert model.domains() == {"the first": ("green",), "the 2nd!": ("green",)}
        assert model.why(first, "red") == (same, dear)
        with model.without(dear):
            assert model.domain(first) == ("red", "green") and model.domain(second) == ("green", "red")
        same.retract()
        assert model.maximize(price).value == 9 and model.solve()[second] in ("green", "blue")
        with pytest.raises(ModelError):
            first < second
        with pytest.raises(TypeError):
            bool(first == "red")
        with pytest.raises(ModelError):
            model.why(first, "blue")


def test_a_long_sum_is_made_of_parts_and_names_its_limit() -> None:
    with Model() as model:
        flags = list(model.array("flag", range(2), range(40)).values())
        exactly = model.add(sum(flags) == 39, "thirty-nine of forty")
        model.add(differ(flags[:2]), "one of two", background=True)
        assert model.domain(flags[5]) == (0, 1) and model.limits().variables == 42
        model.add(flags[7] == 0, "not the eighth")
        answer = model.solve()
        assert answer.outcome == "none" and exactly in answer.rules
        wide = list(model.array("wide", range(256), range(17)).values())
        with pytest.raises(LimitError) as limit:
            model.add(sum(place * one for place, one in enumerate(wide, 1)) <= 9)
        assert limit.value.most == 256 and "count in larger units" in str(limit.value)
        assert model.solve().outcome == "none"


def test_as_many_variables_and_constraints_as_a_session_may_have() -> None:
    with Model() as model:
        flags = list(model.array("flag", range(2), range(128)).values())
        with pytest.raises(LimitError) as limit:
            model.var("one more", range(2))
        assert limit.value.most == 128 and "one more" not in model.variables
        for place in range(512):
            model.add(flags[place % 128] <= flags[(place + 1 + place // 128) % 128])
        with pytest.raises(LimitError):
            model.add(flags[0] == 1)
        assert str(model.limits()) == "128 of 128 variables, 512 of 512 constraints, version 2"
        assert model.solve().outcome == "found"


def test_wishes_are_kept_by_weight_and_left_out_whole() -> None:
    with Model() as model:
        x, y = model.var("x", range(1, 4)), model.var("y", range(1, 4))
        model.add(x < y, "order")
        early = model.add([x == 1, y == 2], "early", weight=5)
        late = model.add([y == 3, x != 1], "late", weight=9)
        preference = model.preferred()
        assert [rule.label for rule in preference.keep] == ["order", "late"] and [out.rule for out in preference.leave] == [early]
        assert early.active and model.preferred(apply=True).leave == preference.leave and not early.active
        assert model.solve().solution == {"x": 2, "y": 3}
        late.prefer(None)
        early.enforce()
        early.prefer(None)
        assert set(model.preferred().hard) == {early, late} and model.minimal() is not None


def test_a_model_goes_on_where_the_program_was_killed() -> None:
    with Model() as model:
        starts = [model.var(f"start {number}", range(9)) for number in range(3)]
        model.add(no_overlap((start, 3) for start in starts), "machine")
        first = model.add(starts[0] == 3, "first")
        before = model.domains()
        model.session.restart()
        first.relax()
        first.enforce()
        assert model.domains() == before and model.limits().version == 1
        assert model.minimize(starts[1]).value == 0 and model.limits().version == 2
        assert model.domains() == before


def test_what_is_refused_is_never_sent() -> None:
    with Model() as model:
        x = model.var("sum", range(3))
        for wrong in (lambda: model.var("sum", range(2)), lambda: x * x, lambda: model.var("e", []), lambda: model.add([True])):
            with pytest.raises(ModelError):
                wrong()
        for nothing in (True, x, 7, [True], [x]):
            with pytest.raises(ModelError, match="is no constraint"):
                model.add(nothing)
        assert model.rules == []
        model.add(x >= 1, "in")
        model.add(x >= 1, "in")
        assert model.domains() == {"sum": (1, 2)}
        with pytest.raises(Refused):
            model.send("nonsense")


def test_a_search_that_is_stopped_tells_what_it_knows() -> None:
    with Model() as model:
        holes = model.array("hole", range(1, 12), range(12))
        model.add(differ(holes.values()), "each its own")
        calls: List[Any] = []

        def stop(progress: Any) -> None:
            calls.append(progress)
            raise KeyboardInterrupt

        answer = model.solve(seconds=120, progress=stop)
        assert answer.stopped and answer.outcome == "unknown" and not answer and calls[0].turns == 1000
        assert model.solve(seconds=0.2).outcome == "unknown" and len(model.domain(holes[0])) == 11
        assert model.session.journal.chosen["guide"] == "none"


def test_a_model_without_variables_has_one_solution() -> None:
    with Model() as model:
        assert model.solve().outcome == "found" and model.solutions(5) == [{}] and model.domains() == {}


def test_what_is_interrupted_goes_on_with_the_next_question() -> None:
    with Model() as model:
        x = model.var("x", range(5))
        rule = model.add([x >= 1, x <= 3, x != 2], "three of them")
        model.session.do("pause")
        assert model.domain(x) == (1, 3)
        model.session.do(f"relax {rule.names[0]}")
        model.session.restart()
        rule.relax()
        assert model.domain(x) == (0, 1, 2, 3, 4)
        rule.enforce()
        assert model.domain(x) == (1, 3)


def labels(model: Model) -> Dict[str, int]:
    return {rule.label: len(rule.names) for rule in model.rules}


def test_sixteen_in_a_differ_and_more() -> None:
    with Model() as model:
        seats = list(model.array("seat", range(1, 18), range(17)).values())
        model.add(differ(seats), "all")
        model.add([seat == place for place, seat in enumerate(seats[:16], 1)], "given")
        assert model.domain(seats[16]) == (17,) and labels(model) == {"all": 3, "given": 16}
