"""A computer of eight parts: which of the wishes can be had together, and the least price with these."""

import json
from pathlib import Path

from palm import Expression, Model, element, implies

parts = json.loads(Path(__file__).with_suffix(".json").read_text())

with Model() as model:
    part = {name: model.var(name, list(choices)) for name, choices in parts.items()}

    def of(name: str, column: str) -> Expression:
        return element(part[name], {choice: row[column] for choice, row in parts[name].items()})

    model.add(of("cpu", "socket") == of("board", "socket"), "the socket fits")
    model.add(implies(part["board"].isin(["h610", "a620"]), part["memory"].isin(["8", "16", "32"])), "two memory slots")
    model.add(of("gpu", "length") <= of("case", "length"), "the graphics card fits")
    model.add(of("cpu", "watts") <= of("cooler", "watts"), "the cooler is enough")
    used = sum(of(name, "watts") for name in ("cpu", "board", "memory", "gpu", "disk"))
    model.add(used + 100 <= of("supply", "watts"), "the supply is enough")
    price = sum(of(name, "price") for name in parts)

    model.add(part["cpu"].isin(["i3", "i5", "i7"]), "wants intel", weight=5)
    model.add(part["case"] == "mini", "wants a small case", weight=10)
    model.add(part["memory"].isin(["64", "128"]), "wants memory", weight=15)
    model.add(part["gpu"].isin(["rtx4070", "rtx4090"]), "wants to play", weight=20)

    for out in model.preferred(apply=True).leave:
        print(f"without '{out.rule}', because of {' and '.join(map(str, out.conflict))}")
    best = model.minimize(price)
    print(f"{best.outcome}: {best.value}")
    print(" ".join(best[part[name]] for name in parts))
