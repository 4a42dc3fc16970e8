"""A week of shifts; then Ann is away for three days, and the new week has as few changes as can be."""

import json
from itertools import product
from pathlib import Path

from palm import Model, count, table

data = json.loads(Path(__file__).with_suffix(".json").read_text())
days, people, shifts = data["days"], data["people"], data["shifts"]

with Model() as model:
    plan = model.array("shift", shifts, days, people)
    for day, (shift, number) in product(days, data["needed"].items()):
        model.add(count([plan[day, person] for person in people], shift) == number, f"{number} {shift} on {day}")
    for day in days:
        home = len(people) - sum(data["needed"].values())
        model.add(count([plan[day, person] for person in people], "off") == home, f"home on {day}", background=True)
    follows = [(today, after) for today, others in data["after"].items() for after in others]
    for person in people:
        week = [plan[day, person] for day in days]
        model.add(count(week, "off") >= data["free days"], f"free days of {person}")
        model.add([table(pair, follows) for pair in zip(week, week[1:])], f"rest of {person}")

    before = model.solve(seconds=60)
    for person, day in data["away"]:
        model.add(plan[day, person] == "off", f"{person} is away on {day}")
    changes = sum(plan[place] != before[plan[place]] for place in plan)
    after = model.minimize(changes, seconds=20)
    print(f"{after.outcome}: {after.value} changes")
    for person in people:
        print(f"{person}: {' '.join(after[plan[day, person]] for day in days)}")
