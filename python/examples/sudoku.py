"""A sudoku with seventeen digits, and why a cell has the digit that it has."""

from pathlib import Path

from palm import Model, differ

rows = Path(__file__).with_suffix(".txt").read_text().split()
NINE = range(9)

with Model() as model:
    cell = model.array("cell", range(1, 10), NINE, NINE)
    for place in NINE:
        model.add(differ(cell[place, column] for column in NINE), f"row {place + 1}")
        model.add(differ(cell[row, place] for row in NINE), f"column {place + 1}")
        model.add(differ(cell[place // 3 * 3 + k // 3, place % 3 * 3 + k % 3] for k in NINE), f"box {place + 1}")
    for (row, column), variable in cell.items():
        if rows[row][column] != ".":
            model.add(variable == int(rows[row][column]), f"given {row + 1}{column + 1}")
    found = model.solutions(2, seconds=60)
    print(f"{len(found)} solution{'s' * (len(found) != 1)}, {'and no other' if found.complete else 'perhaps more'}")
    for row in NINE:
        print("".join(str(found[0][cell[row, column]]) for column in NINE))
    print(model.explain(cell[0, 0], 4))
