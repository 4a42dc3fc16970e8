"""Draws sessions by their numbers, with lines of all forms, kinds of constraint and both versions: the same ones for ever.

Each is drawn around hidden values, one for each variable. Most of its constraints hold for these, so that filtering takes values
out and leaves some. The others are mistakes, drawn around other values; they are asked about, and soon taken out of force.
"""

import operator

OPS = {"=": operator.eq, "!=": operator.ne, "<": operator.lt, "<=": operator.le, ">": operator.gt, ">=": operator.ge}

# How many variables a session begins with, how many values each has, and how many of a hundred have gaps. The numbers take the
# shapes in turn.
SHAPES = (
    (5, 9, 3, 8, 30), (4, 7, 10, 30, 80), (6, 10, 4, 6, 10), (2, 4, 100, 256, 60), (12, 18, 2, 5, 30), (5, 8, 5, 12, 100),
    (25, 45, 2, 4, 10),
)

# What a step does, and how often beside the others; and what only version 2 has.
STEPS = (
    ("add", 30), ("mistake", 9), ("relax", 7), ("enforce", 6), ("retract", 4), ("why", 25), ("minimal", 5), ("cert", 6),
    ("look", 6), ("conflict", 3), ("solve", 5), ("repair", 5), ("pause", 4), ("choose", 4), ("declare", 3), ("zigzag", 2),
    ("puzzle", 2), ("slip", 2),
)
MORE_STEPS = (("prove", 3), ("minimize", 4), ("prefer", 20), ("preferred", 4))
PAUSED_STEPS = (("add", 4), ("relax", 3), ("enforce", 2), ("retract", 2), ("run", 5), ("look", 1), ("why", 1))
# The lines of a step that changes no constraint.
ASKS = {
    "why": ["why {pair}"], "minimal": ["minimal {pair}"], "cert": ["cert {pair}"], "preferred": ["preferred"],
    "look": ["domains", "log", "log", "list", "domain {name}"], "run": ["step {few}"],
    "solve": ["solve dbt budget {budget}"], "repair": ["solve repair tabu {few} budget {budget}"],
    "prove": ["prove budget {budget}"], "minimize": ["minimize {name} budget {budget}"],
    "prefer": ["prefer {con} 1", "prefer {con} 3", "prefer {con} {few}", "prefer {con} 40", "prefer {con} none"],
    "choose": ["order 1", "order 2", "guide 2", "guide 3"] * 3 + ["order none", "guide none", "drop order 2", "drop guide 3"],
    "slip": ["domains x", "var v1 1..2", "why v1 1000000", "resume", "relax nothing", "add bad : sum 0*v1 <= 3", "order 9",
             "add bad : v1 < v1", "add bad : table v1 v2 : (1,2) (3)", "solve dbt budget 0", "# a comment", " \t ", "list"],
}


class Dice:
    """Numbers that follow from a seed, whatever the version of Python."""

    def __init__(self, seed):
        self.state = seed

    def below(self, count):
        self.state = (self.state * 6364136223846793005 + 1442695040888963407) % 2**64
        return (self.state >> 33) % count

    def between(self, low, high):
        return low + self.below(high - low + 1)

    def falls(self, percent):
        return self.below(100) < percent

    def one_of(self, items):
        return self.some_of(items, 1)[0]

    def some_of(self, items, count):
        """So many of the items, or all of them, shuffled."""
        left = list(items)
        return [left.pop(self.below(len(left))) for _ in range(min(count, len(left)))]

    def weighed(self, rows):
        """A word of the rows, by their weights."""
        return self.one_of([word for word, weight in rows for _ in range(weight)])


def set_of(values):
    """The values as a domain: as an interval where they are one."""
    low, high = min(values), max(values)
    return f"{low}..{high}" if high - low + 1 == len(set(values)) else "{" + ",".join(map(str, values)) + "}"


class Drawn:
    """A session while it is drawn."""

    def __init__(self, number):
        self.dice, self.version = Dice(number), 1 + number % 2
        self.lines = ["palm 2"] if self.version == 2 else []
        self.domains, self.hidden, self.is_active, self.mistakes = {}, {}, {}, []
        self.added = 0
        fewest, most, *self.shape = SHAPES[number // 2 % len(SHAPES)]
        for _ in range(self.dice.between(fewest, most)):
            self.declare()
        for _ in range(len(self.domains) // 2 + self.dice.between(2, 4)):
            self.add()
        for _ in range(self.dice.between(30, 50)):
            self.step()
        while self.mistakes:
            self.take("relax", self.mistakes[0])
        for word in ("why", "why", "why", "minimal", "cert", "conflict", "solve"):
            self.do(word)
        self.lines += ["domains", "list", "log", "quit"]

    def step(self):
        if self.mistakes and self.dice.falls(40):
            self.conflict()
            self.take(self.dice.one_of(("relax", "relax", "retract")), self.mistakes[0])
        self.do(self.dice.weighed(STEPS + (MORE_STEPS if self.version == 2 else ())))

    def do(self, word):
        if word in ASKS:
            name, con = self.dice.one_of(self.domains), self.dice.one_of(self.is_active or ["c1"])
            value = self.dice.one_of([value for value in self.domains[name] if value != self.hidden[name]])
            few, budget = self.dice.between(1, 9), self.dice.one_of((1, 5, 20, 60))
            line = self.dice.one_of(ASKS[word])
            self.lines.append(line.format(pair=f"{name} {value}", name=name, con=con, few=few, budget=budget))
        elif word in ("relax", "enforce", "retract"):
            names = [name for name, active in self.is_active.items() if word == "retract" or active == (word == "relax")]
            if names:
                self.take(word, self.dice.one_of(names))
        else:
            getattr(self, word)()

    def take(self, word, name):
        """Takes the constraint out of force, or puts it back."""
        self.lines.append(f"{word} {name}")
        self.is_active[name] = word == "enforce"
        if word == "retract":
            del self.is_active[name]
        self.mistakes = [mistake for mistake in self.mistakes if mistake != name]

    def declare(self, values=None):
        least, most, gaps = self.shape
        if values is None:
            values = [self.dice.one_of((0, 1, 1, 1, -3, 2)) + (self.dice.one_of((-990000, 990000)) if self.dice.falls(3) else 0)]
            widest = 3 if self.dice.falls(gaps) else 1
            for _ in range(self.dice.between(least, most) - 1):
                values.append(values[-1] + self.dice.between(1, widest))
        name = f"v{len(self.domains) + 1}"
        self.domains[name] = values
        self.hidden[name] = self.dice.one_of(values if self.dice.falls(50) else values[:2] + values[-2:])
        domain = ""
        if self.version == 2 and self.dice.falls(30):
            domain = f" in {self.part_of(name, self.hidden)}"
            self.is_active[name] = True
        self.lines.append(f"var {name} {set_of(values)}{domain}")
        return name

    def part_of(self, name, around):
        """Some of the variable's values, the one of `around` with them, and sometimes one that it was not declared with."""
        kept = [value for value in self.domains[name] if value == around[name] or self.dice.falls(60)]
        return set_of(kept + [max(kept) + 1] if self.dice.falls(20) and len(kept) < 250 else kept)

    def within(self, around):
        name = self.dice.one_of(self.domains)
        return f"{name} in {self.part_of(name, around)}"

    def beside(self, op, number):
        """What the number stands in the relation to."""
        slack, apart = self.dice.below(3), self.dice.one_of((-2, -1, 1, 2))
        return number + {"=": 0, "!=": apart, "<": 1 + slack, "<=": slack, ">": -1 - slack, ">=": -slack}[op]

    def comparison(self, around):
        op = self.dice.one_of(OPS)
        name, other = self.dice.some_of(self.domains, 2)
        if self.dice.falls(25):
            return f"{name} {op} {self.beside(op, around[name])}"
        offset = self.beside(op, around[name] - around[other])
        return f"{name} {op} {other}" + (f" {'+-'[offset < 0]} {abs(offset)}" if offset else "")

    def linear(self, around):
        names = self.dice.some_of(self.domains, self.dice.between(2, 5) if self.dice.falls(80) else 16)
        op = self.dice.one_of(("=", "!=", "<=", ">=", "=", "<=", ">="))
        text, total = "", 0
        for name in names:
            # Most terms are near the end of what they can be that the relation looks at.
            is_low = around[name] * 2 <= self.domains[name][0] + self.domains[name][-1]
            sign = 1 if is_low == (op != ">=") or self.dice.falls(20) else -1
            factor = self.dice.one_of((1, 1, 1, 1, 2, 3, 7))
            text += f" {'+-'[sign < 0]} " + (f"{factor}*{name}" if factor > 1 else name)
            total += sign * factor * around[name]
        return f"sum{text.removeprefix(' +')} {op} {self.beside(op, total)}"

    def table(self, around):
        names = self.dice.some_of(self.domains, self.dice.between(2, 4))
        rows = [[self.dice.one_of(self.domains[name]) for name in names] for _ in range(self.dice.between(2, 16))]
        rows[self.dice.below(len(rows))] = [around[name] for name in names]
        rows += [[self.domains[name][-1] + 1 for name in names]] * self.dice.falls(15)
        return f"table {' '.join(names)} : " + " ".join(f"({','.join(map(str, row))})" for row in rows)

    def element(self, around):
        indices = [name for name in self.domains if 1 <= around[name] <= 60]
        if not indices:
            return self.comparison(around)
        index = self.dice.one_of(indices)
        outcome = self.dice.one_of([name for name in self.domains if name != index])
        entries = [self.dice.one_of(self.domains[outcome]) for _ in range(around[index] + self.dice.below(5))]
        entries[around[index] - 1] = around[outcome]
        return f"element {outcome} {index} ({','.join(map(str, entries))})"

    def count(self, around):
        names = self.dice.some_of(self.domains, self.dice.between(2, 7))
        value = around[self.dice.one_of(names)]
        number = sum(around[name] == value for name in names)
        op = self.dice.one_of(OPS)
        targets = [name for name in self.domains if name not in names and OPS[op](number, around[name])]
        target = self.dice.one_of(targets) if targets and self.dice.falls(60) else self.beside(op, number)
        return f"count {value} {' '.join(names)} {op} {target}"

    def differ(self, around):
        names = {around[name]: name for name in self.dice.some_of(self.domains, self.dice.between(3, 9))}.values()
        return f"differ {' '.join(names)}" if len(names) > 1 else self.comparison(around)

    def post(self, con):
        self.added += 1
        name = f"c{self.added}"
        self.is_active[name] = True
        self.lines.append(f"add {name} : {con}")
        return name

    def draw(self, around):
        kinds = [self.comparison, self.comparison, self.linear, self.linear, self.table, self.element, self.count, self.differ]
        return self.dice.one_of(kinds + [self.within] * (self.version == 2))(around)

    def add(self):
        self.post(self.draw(self.hidden))

    def mistake(self):
        self.mistakes.append(self.post(self.draw({name: self.dice.one_of(values) for name, values in self.domains.items()})))
        self.conflict()

    def conflict(self):
        self.lines += self.dice.some_of(("conflict", "minimal conflict", "cert conflict"), self.dice.between(1, 3))
        if self.mistakes and self.version == 2 and self.dice.falls(40):
            self.lines += [f"prefer {self.mistakes[0]} {self.dice.between(1, 9)}", "preferred"]

    def zigzag(self):
        """Two variables that take values from each other one by one."""
        end, (sign, op) = 2 * self.dice.between(3, 25), self.dice.one_of(((1, "<="), (-1, ">=")))
        one, other = (self.declare(sorted(sign * value for value in [*range(start, end, 2), end])) for start in (0, 1))
        self.hidden[one] = self.hidden[other] = sign * end
        self.post(f"{one} {op} {other}")
        self.post(f"{other} {op} {one}")

    def puzzle(self):
        """One variable more than there are values for them: only a search sees that this is a mistake."""
        values = range(1, self.dice.between(4, 6))
        name = self.post(f"differ {' '.join([self.declare([*values]) for _ in [0, *values]])}")
        for word in ("solve", "repair", "prove", "minimize")[: self.version * 2]:
            self.do(word)
        self.take("relax", name)

    def pause(self):
        """Changes without filtering, and a few steps of it in between."""
        self.lines.append("pause")
        for _ in range(self.dice.between(3, 7)):
            self.do(self.dice.weighed(PAUSED_STEPS))
        self.lines.append("resume")
