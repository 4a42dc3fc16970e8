"""The job shop FT06: six jobs of six steps, each on a machine of its own, done as early as can be."""

from pathlib import Path

from palm import Model, Task, no_overlap

HORIZON = 70
lines = [line for line in Path(__file__).with_suffix(".txt").read_text().splitlines() if not line.startswith("#")]
jobs = [list(zip(*[map(int, line.split())] * 2)) for line in lines]

with Model() as model:
    tasks = {}
    for job, steps in enumerate(jobs):
        for place, (machine, length) in enumerate(steps):
            tasks[job, machine] = Task(model.var(f"job {job + 1} step {place + 1}", range(HORIZON + 1)), length)
    done = model.var("done", range(HORIZON + 1))
    for job, steps in enumerate(jobs):
        row = [tasks[job, machine] for machine, _ in steps]
        model.add([later.start >= task.start + task.length for task, later in zip(row, row[1:])], f"steps of job {job + 1}")
        model.add(done >= row[-1].start + row[-1].length, f"end of job {job + 1}")
    for machine in range(1, 7):
        model.add(no_overlap(tasks[job, machine] for job in range(len(jobs))), f"machine {machine}")
    best = model.minimize(done, seconds=60)
    print(f"{best.outcome}: {best.value}")
    for job, steps in enumerate(jobs):
        print(" ".join(f"{best[tasks[job, machine].start]:2}" for machine, _ in steps))
