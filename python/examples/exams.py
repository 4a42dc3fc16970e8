"""Twenty exams in ten slots and three rooms: those that share students are at other times, and each fits its room."""

import json
from pathlib import Path

from palm import Model, differ

data = json.loads(Path(__file__).with_suffix(".json").read_text())
rooms = list(data["rooms"])

with Model() as model:
    exams = range(1, len(data["sizes"]) + 1)
    slot = model.array("slot", range(1, data["slots"] + 1), exams)
    room = model.array("room", range(len(rooms)), exams)
    for exam, size in zip(exams, data["sizes"]):
        fitting = [number for number, name in enumerate(rooms) if data["rooms"][name] >= size]
        model.add(room[exam].isin(fitting), f"exam {exam} has {size} seats")
    model.add(differ(len(rooms) * slot[exam] + room[exam] for exam in exams), "one exam at a time in a room")
    for one, other in data["clashes"]:
        model.add(slot[one] != slot[other], f"students take {one} and {other}")
    model.add(slot[1] <= 2, "exam 1 comes early")
    model.add(slot[3] > slot[2], "exam 3 comes after 2")
    model.add(slot[5] <= 6, "exam 5 is not last")
    found = model.solve(seconds=60)
    print(found.outcome)
    for exam in exams:
        print(f"{exam}: slot {found[slot[exam]]}, {rooms[found[room[exam]]]}")
