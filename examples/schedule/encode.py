"""Schedules jobs on machines: each machine does one task at a time, and each job's tasks come in their order.

`jobs.txt` has a job on each line: its name, and its tasks as machines and hours. `wishes.txt` has on each line a
machine and two jobs, the first of which is to be on it before the second.

All is written by hand here, to show how clauses and a graph say it; `Problem.add_schedule` says it in five lines.
"""

from __future__ import annotations

import itertools
from collections.abc import Iterator
from dataclasses import dataclass
from pathlib import Path

from gulfezo import Literal, Model, Problem
from gulfezo.marks import COLOURS
from gulfezo.svg import FONT, PALE

HERE = Path(__file__).parent


@dataclass(frozen=True)
class Task:
    """A task of a job, as a node of the graph."""

    job: str
    machine: str
    hours: int
    node: int


@dataclass
class Shop:
    """A problem with its tasks in the order of their nodes. Its one predicate is that no order runs in a circle.

    Where tasks may take no time, `done` says of each that it takes its hours.
    """

    problem: Problem
    tasks: list[Task]
    done: list[Literal]


def read_rows(name: str) -> list[list[str]]:
    """The words of each line of a file."""
    return [line.split() for line in (HERE / name).read_text().splitlines()]


def encode(deadline: int | None = None, wishes: bool = False, all_done: bool = True) -> Shop:
    """All tasks end by the deadline, where there is one; the wishes are met where they are wanted.

    Unless all are to be done, a task may take no time; it still comes before or after the others on its machine.

    An edge from a task to another says that it comes before. Successive tasks of a job have one that is always there.
    Two tasks on one machine have one each way, of which one at least is there.
    """
    problem = Problem()
    graph = problem.add_graph("tasks")
    always = problem.add_variable("always")
    problem.require(always)
    tasks: list[Task] = []
    for row, (job, *steps) in enumerate(read_rows("jobs.txt")):
        for place, (machine, hours) in enumerate(zip(steps[::2], steps[1::2])):
            tasks.append(Task(job, machine, int(hours), graph.add_node(f"{job} {machine}@{1.5 * place},{row}")))
            if place:
                graph.add_edge(tasks[-2].node, tasks[-1].node, variable=always)
    for one, other in itertools.combinations(tasks, 2):
        if one.machine == other.machine:
            problem.add_clause(graph.add_edge(one.node, other.node), graph.add_edge(other.node, one.node))
    problem.require(graph.acyclic())
    if wishes:
        node = {(task.machine, task.job): task.node for task in tasks}
        for machine, first, second in read_rows("wishes.txt"):
            edges = [e for e in graph.edges if (e.start, e.end) == (node[machine, first], node[machine, second])]
            problem.require(*edges)
    done = [] if all_done else [problem.add_variable(f"{task.job} {task.machine}") for task in tasks]
    if deadline is not None:
        require_deadline(problem, tasks, deadline, done)
    return Shop(problem, tasks, done)


def require_deadline(problem: Problem, tasks: list[Task], deadline: int, done: list[Literal]) -> None:
    """Variables say of each task that it starts at an hour or later; where it must, the tasks behind it must too.

    A task takes its hours where its literal in `done` is true, or where there is none.
    """
    late = {
        (task.node, hour): problem.add_variable(f"{task.job} {task.machine} starts at {hour} or later")
        for task in tasks
        for hour in range(1, deadline - (0 if done else task.hours) + 1)
    }

    def starts(node: int, hour: int) -> Iterator[Literal]:
        """The literal that the task starts then or later; none where it would end too late."""
        if (node, hour) in late:
            yield late[node, hour]

    for node, hour in late:
        if hour > 1:
            problem.add_clause(~late[node, hour], late[node, hour - 1])
    for task, literal in zip(tasks, done):
        problem.add_clause(~literal, ~late[task.node, deadline - task.hours + 1])
    for edge in problem.graphs[0].edges:
        own: list[Literal] = [~literal for literal in done[edge.start : edge.start + 1]]
        for hours, unless in [(tasks[edge.start].hours, own), (0, own[:0])][: 1 + len(own)]:
            for hour in range(0 if hours else 1, deadline - hours + 1):
                is_late = [~late[edge.start, hour]] if hour else []
                problem.add_clause([~edge, *unless, *is_late, *starts(edge.end, hour + hours)])


def starts_of(tasks: list[Task], model: Model) -> dict[Task, int]:
    """The hour at which each task starts, as early as the tasks before it allow."""
    edges = model.present(model.problem.graphs[0])
    start = dict.fromkeys(range(len(tasks)), 0)
    for node in model.order(model.problem.predicates[0]):
        for edge in edges:
            if edge.start == node:
                start[edge.end] = max(start[edge.end], start[node] + tasks[node].hours)
    return {task: start[task.node] for task in tasks}


def length_of(starts: dict[Task, int]) -> int:
    """The hours until all tasks are done."""
    return max(start + task.hours for task, start in starts.items())


SHORTEST = 11


def problems() -> dict[str, Problem]:
    """The problems of this example by name: the shortest schedule, and wishes that run in a circle."""
    return {"shop": encode(SHORTEST).problem, "circle": encode(wishes=True).problem}


def picture(problem: Problem, model: Model) -> str:
    """The schedule as a chart: a row for each machine, its tasks from hour to hour."""
    starts = starts_of(encode().tasks, model)
    machines = list(dict.fromkeys(task.machine for task in starts))
    colour = dict(zip(dict.fromkeys(task.job for task in starts), COLOURS))
    hours, wide, high, left = length_of(starts), 40, 44, 70
    size = f"width='{left + wide * hours + 20}' height='{high * len(machines) + 40}'"
    shapes = [f"<svg xmlns='http://www.w3.org/2000/svg' {size} {FONT} font-size='13'>"]
    shapes.append("<rect width='100%' height='100%' fill='white'/>")
    for hour in range(hours + 1):
        x, bottom = left + wide * hour, high * len(machines) + 10
        shapes.append(f"<path d='M{x} 10 V{bottom}' stroke='{PALE}'/>")
        shapes.append(f"<text x='{x}' y='{bottom + 18}' text-anchor='middle'>{hour}</text>")
    for row, machine in enumerate(machines):
        shapes.append(f"<text x='{left - 10}' y='{high * row + 36}' text-anchor='end'>{machine}</text>")
    for task, start in starts.items():
        x, y = left + wide * start, high * machines.index(task.machine) + 14
        box = f"x='{x + 1}' y='{y}' width='{wide * task.hours - 2}' height='{high - 8}'"
        middle = f"x='{x + wide * task.hours / 2:g}' y='{y + 23}' text-anchor='middle'"
        shapes.append(f"<rect {box} rx='4' fill='{colour[task.job]}'/>")
        shapes.append(f"<text {middle} fill='white'>{task.job}</text>")
    return "\n".join([*shapes, "</svg>", ""])


def main() -> None:
    """Shortens the schedule until nothing is shorter; says which tasks are too much, and which run in a circle."""
    deadline = sum(task.hours for task in encode().tasks)
    while answer := (shop := encode(deadline)).problem.solve():
        starts = starts_of(shop.tasks, answer)
        deadline = length_of(starts)
        print(f"{deadline} hours:", ", ".join(f"{t.job} {t.machine} at {start}" for t, start in starts.items()))
        deadline -= 1
    count = len(answer.steps)
    print(f"nothing is shorter: the refutation has {count} step{'s' * (count > 1)}")
    shop = encode(deadline, all_done=False)
    if not (core := shop.problem.core(shop.done)):
        print(f"too much for {deadline} hours:", ", ".join(core.names))
    shop = encode(wishes=True)
    answer = shop.problem.solve()
    if not answer:
        cycle = next(step for step in answer.lemmas if step.word == "cycle")
        tasks = [shop.tasks[shop.problem.edges[number - 1].start] for number in cycle.listed]
        print("the wishes run in a circle:", ", ".join(f"{task.job} {task.machine}" for task in tasks))


if __name__ == "__main__":
    main()
