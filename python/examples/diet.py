"""Nine foods in whole servings: the cheapest day that has enough of everything, and what keeps it from being cheaper."""

import csv
from pathlib import Path

from palm import Model

*foods, least, most = csv.DictReader(Path(__file__).with_suffix(".csv").open())
nutrients = [name for name in least if least[name] and name != "food"]

with Model() as model:
    servings = {row["food"]: model.var(row["food"], range(int(row["most"]) + 1)) for row in foods}

    def total(column):
        return sum(int(row[column]) * servings[row["food"]] for row in foods)

    for name in nutrients:
        model.add(total(name) >= int(least[name]), f"{name} at least {least[name]}")
        if most[name]:
            model.add(total(name) <= int(most[name]), f"{name} at most {most[name]}")
    best = model.minimize(total("price"), seconds=60)
    print(f"{best.outcome}: {best.value}")
    print(", ".join(f"{best[one]} {food}" for food, one in servings.items() if best[one]))
    print("for the sake of:", ", ".join(map(str, best.rules)))
