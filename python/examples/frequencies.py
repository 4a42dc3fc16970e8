"""Sixteen transmitters and their channels: eight pairs exactly so far apart, and sixty pairs at least."""

from pathlib import Path

from palm import Model

lines = [line.split() for line in Path(__file__).with_suffix(".txt").read_text().splitlines() if not line.startswith("#")]
channels = [int(word) for word in lines[0][1:]]

with Model() as model:
    channel = model.array("channel", channels, range(1, 17))
    for one, other, relation, number in lines[1:]:
        distance = abs(channel[int(one)] - channel[int(other)])
        apart = distance == int(number) if relation == "=" else distance > int(number)
        model.add(apart, f"{one} and {other} are {'' if relation == '=' else 'more than '}{number} apart")
    found = model.solve(seconds=60)
    print(found.outcome)
    print(" ".join(str(found[channel[number]]) for number in channel))
