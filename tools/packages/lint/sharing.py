"""Groups that share a task with others: connecting one moves their areas, and pulling it spoils their counter."""

import re
from collections.abc import Iterator

from lint.findings import Finding
from projects.asking import Program, input_of
from projects.names import Names
from projects.records import Group, Project

NAMED = 3
MOVED = re.compile(r"epoch \d+ recut \d+ moved (\d+)")


def shared_tasks(project: Project, names: Names, program: Program, text: bytes) -> Iterator[Finding]:
    """The groups with a task that has areas of others, and what connecting them costs."""
    users = users_of(project)
    sharing = [(place, group) for place, group in enumerate(project.groups[1:]) if shared_of(group, users)]
    costs = Costs(program, text, [group for _, group in sharing], project.groups[1:])
    for place, group in sharing:
        shared = shared_of(group, users)
        others = {other.alias: other for task in shared for other in users[task] if other is not group}
        tasks = ", ".join(f"task {task} {names.tasks[task].name}".rstrip() for task in shared)
        words = f"{group.title()} shares {tasks} with {titles(list(others.values()))}: {costs.words(group)}"
        yield Finding(group.line, "SharedTask", words, f"group[{place}]")


def titles(groups: list[Group]) -> str:
    """What some groups are called, the first ones by name."""
    named = [group.title() for group in groups[:NAMED]]
    return ", ".join([*named, *([f"{len(groups) - NAMED} more"] if len(groups) > NAMED else [])])


def users_of(project: Project) -> dict[int, list[Group]]:
    """The groups that have an area in each task."""
    users: dict[int, list[Group]] = {}
    for group in project.groups:
        for task in sorted(tasks_of(group)):
            users.setdefault(task, []).append(group)
    return users


def tasks_of(group: Group) -> set[int]:
    """The tasks of a group's areas."""
    return {area.task for slave in group.slaves for area in slave.areas}


def shared_of(group: Group, users: dict[int, list[Group]]) -> list[int]:
    """The tasks that a group shares."""
    return sorted(task for task in tasks_of(group) if len(users[task]) > 1)


class Costs:
    """What the program answers to a group's connection, at the opening line and with all other groups present."""

    def __init__(self, program: Program, text: bytes, groups: list[Group], every: list[Group]) -> None:
        alone = [command % group.alias for group in groups for command in (b"connect %d\n", b"disconnect %d\n")]
        beside = [command % group.alias for group in groups for command in (b"disconnect %d\n", b"connect %d\n")]
        present = [b"connect %d\n" % group.alias for group in every]
        alone_answers = program.printed(input_of(text, alone))[0::2] if groups else []
        beside_answers = program.printed(input_of(text, present + beside))[len(present) + 1 :: 2] if groups else []
        aliases = [group.alias for group in groups]
        self.alone, self.beside = dict(zip(aliases, alone_answers)), dict(zip(aliases, beside_answers))

    def words(self, group: Group) -> str:
        """What connecting a group costs."""
        own = 2 * sum(len(slave.areas) for slave in group.slaves)
        opening, full = cost_words(self.alone[group.alias]), cost_words(self.beside[group.alias])
        return f"connecting it {opening}, with all groups present {full}; {own} blocks are its own"


def cost_words(answer: str) -> str:
    """A number of blocks, or why there is none."""
    found = MOVED.fullmatch(answer)
    return f"moves {found[1]} blocks" if found else f"is answered {answer}"
