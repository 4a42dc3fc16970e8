"""Five jobs of five steps with due dates: how late they are together at least, and what the most urgent one costs the others."""

from pathlib import Path

from palm import Model, Task, no_overlap

HORIZON = 40
lines = [line for line in Path(__file__).with_suffix(".txt").read_text().splitlines() if not line.startswith("#")]
rows = [(int(due), list(zip(*[map(int, steps.split())] * 2))) for due, steps in (line.split(":") for line in lines)]

with Model() as model:
    tasks, late = {}, []
    for job, (due, steps) in enumerate(rows, 1):
        for machine, length in steps:
            tasks[job, machine] = Task(model.var(f"job {job} machine {machine}", range(HORIZON + 1)), length)
    for job, (due, steps) in enumerate(rows, 1):
        row = [tasks[job, machine] for machine, _ in steps]
        model.add([after.start >= task.start + task.length for task, after in zip(row, row[1:])], f"steps of job {job}")
        late.append(model.var(f"late {job}", range(HORIZON)))
        model.add(row[-1].start + row[-1].length - due <= late[-1], f"job {job} is due at {due}")
    for machine in range(1, 6):
        model.add(no_overlap(tasks[job, machine] for job in range(1, 6)), f"machine {machine}")
    best = model.minimize(sum(late), seconds=60)
    print(f"{best.outcome}: {best.value} hours late, {' '.join(str(best[one]) for one in late)}")
    urgent = model.add(late[1] == 0, "job 2 is urgent")
    after = model.minimize(sum(late), seconds=60)
    print(f"{after.outcome}: {after.value} hours late, {' '.join(str(after[one]) for one in late)}")
