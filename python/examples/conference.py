"""Twelve talks in four slots and three rooms, and seventeen wishes: the heaviest first, and the most weight in all."""

import json
from pathlib import Path

from palm import Model, differ

data = json.loads(Path(__file__).with_suffix(".json").read_text())
RELATIONS = {"=": "__eq__", "!=": "__ne__", "<": "__lt__", "<=": "__le__", ">": "__gt__", ">=": "__ge__"}

with Model() as model:
    talks = range(1, 13)
    variables = {"slot": model.array("slot", range(1, 5), talks), "room": model.array("room", range(1, 4), talks)}
    slot, room = variables["slot"], variables["room"]
    model.add(differ(3 * slot[talk] + room[talk] for talk in talks), "one talk at a time in a room")
    for speaker, (first, second) in data["speakers"].items():
        model.add(slot[first] != slot[second], f"{speaker} speaks twice")
    for track, members in data["tracks"].items():
        model.add(differ(slot[talk] for talk in members), f"track {track}")
    model.add([room[talk].isin(rooms) for talk, rooms in data["rooms"]], "rooms")
    wishes = {}
    for label, (weight, kind, talk, relation, other) in data["wishes"].items():
        right = variables[kind][other["talk"]] if isinstance(other, dict) else other
        wishes[label] = model.add(getattr(variables[kind][talk], RELATIONS[relation])(right), label, weight=weight)

    print("heaviest first, without:", ", ".join(str(out.rule) for out in model.preferred().leave))
    for rule in wishes.values():
        rule.relax()
    lost = sum(rule.weight * ~rule.constraint for rule in wishes.values())
    best = model.minimize(lost, seconds=60)
    print(f"{best.outcome}: {best.value} lost:", ", ".join(label for label, rule in wishes.items() if not best[rule.constraint]))
