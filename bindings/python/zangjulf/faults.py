"""Why calls are refused: an exception for each fault, with the numbers and texts of include/zangjulf.h."""

from __future__ import annotations

from .answers import Waiting


class Fault(Exception):
    """A refusal: `number` and `text` are the fault's, `detail` what goes with it, or None. Nothing changed."""

    number = 0
    text = ""

    def __init__(self, detail: int | Waiting | None = None) -> None:
        self.detail = detail
        super().__init__(self.text + ("" if detail is None else f" ({detail})"))


class FrameFault(Fault):
    """A frame that can't be read: it isn't one of the line's."""


class ProjectFault(Fault):
    """A text that is no project, or no group's; `zangjulf.locate` finds where."""


class UnknownAlias(Fault):
    """No declared group has the alias."""

    number = 1
    text = "no declared group has the alias"


class AlreadyPresent(Fault):
    """The group is in the line already."""

    number = 2
    text = "the group is in the line already"


class NotPresent(Fault):
    """The group is not in the line."""

    number = 3
    text = "the group is not in the line"


class Mandatory(Fault):
    """The mandatory group, alias 0, stays."""

    number = 4
    text = "the mandatory group, alias 0, stays"


class UnknownStation(Fault):
    """No declared slave has the station address."""

    number = 5
    text = "no declared slave has the station address"


class Absent(Fault):
    """The slave's group is not in the line."""

    number = 6
    text = "the slave's group is not in the line"


class NoSuchArea(Fault):
    """The slave has no such area."""

    number = 7
    text = "the slave has no such area"


class NoSuchTask(Fault):
    """Tasks are 0 to 7."""

    number = 8
    text = "tasks are 0 to 7"


class UnknownPdo(Fault):
    """The area does not offer one of the PDOs."""

    number = 9
    text = "the area does not offer one of the PDOs"


class RepeatedPdo(Fault):
    """A PDO is named twice."""

    number = 10
    text = "a PDO is named twice"


class AreaTooBig(Fault):
    """The area would have more bits than a datagram, 11,888."""

    number = 11
    text = "the area would have more bits than a datagram, 11,888"


class TooManyDatagrams(Fault):
    """A task would need more than 16 datagrams. `detail` is the task."""

    number = 12
    text = "a task would need more than 16 datagrams"


class EpochsSpent(Fault):
    """The epoch is the last one, 4,294,967,295."""

    number = 13
    text = "the epoch is the last one, 4,294,967,295"


class StalePost(Fault):
    """The epoch is before the last edit that changed the task, or above the present one."""

    number = 15
    text = "the epoch is before the last edit that changed the task, or above the present one"


class PostLength(Fault):
    """The post does not have as many bytes as the task has outputs."""

    number = 16
    text = "the post does not have as many bytes as the task has outputs"


class NothingOwed(Fault):
    """No register block is owed."""

    number = 18
    text = "no register block is owed"


class SerialsSpent(Fault):
    """Too few serials are left below 2^40 - 1."""

    number = 19
    text = "too few serials are left below 2^40 - 1"


class Short(FrameFault):
    """The frame has fewer bytes than the shortest one."""

    number = 20
    text = "the frame has fewer bytes than the shortest one"


class NotEtherCat(FrameFault):
    """The frame's EtherType is not 0x88A4."""

    number = 21
    text = "the frame's EtherType is not 0x88A4"


class BadType(FrameFault):
    """The EtherCAT header has another type than 1."""

    number = 22
    text = "the EtherCAT header has another type than 1"


class BadLength(FrameFault):
    """The frame's lengths do not fit one another."""

    number = 23
    text = "the frame's lengths do not fit one another"


class Circulating(FrameFault):
    """A datagram has come round a second time."""

    number = 24
    text = "a datagram has come round a second time"


class MoreFollows(FrameFault):
    """The last datagram says that another one follows."""

    number = 25
    text = "the last datagram says that another one follows"


class UnknownCommand(FrameFault):
    """A datagram has a command that is not used."""

    number = 26
    text = "a datagram has a command that is not used"


class IndexMismatch(FrameFault):
    """A datagram's index does not fit the frame's serial."""

    number = 27
    text = "a datagram's index is not that of the frame's serial"


class Memory(Fault):
    """Out of memory."""

    number = 28
    text = "out of memory"


class Room(Fault):
    """A slice is too short. `detail` is the bytes that are needed, where they are known."""

    number = 29
    text = "a slice is too short"


class AliasTaken(Fault):
    """A declared group has the alias."""

    number = 31
    text = "a declared group has the alias"


class StationTaken(Fault):
    """A declared slave has one of the station addresses."""

    number = 32
    text = "a declared slave has one of the station addresses"


class VariableTaken(Fault):
    """A declared slave offers one of the variables."""

    number = 33
    text = "a declared slave offers one of the variables"


class TooManyGroups(Fault):
    """More than 512 groups would be declared, the mandatory one counted."""

    number = 34
    text = "more than 512 groups would be declared, the mandatory one counted"


class TooManySlaves(Fault):
    """More than 2,048 slaves would be declared."""

    number = 35
    text = "more than 2,048 slaves would be declared"


class Waits(Fault):
    """A task waits: owed register blocks concern it, or a slave outside the line may map it. `detail` is a `Waiting`: the task, and why."""

    number = 36
    text = "a task waits: owed register blocks concern it, or a slave outside the line may map it"


class UnderWay(Fault):
    """Every owed register block is under way."""

    number = 37
    text = "every owed register block is under way"


class Nothing(Fault):
    """There is no such variable, datagram, slave or block."""

    number = 100
    text = "there is no such variable, datagram, slave or block"


class IsInput(Fault):
    """The variable is an input: it takes no value."""

    number = 105
    text = "the variable is an input: it takes no value"


class TooWide(Fault):
    """The value needs more bits than there are."""

    number = 106
    text = "the value needs more bits than there are"


class ProjectNotToml(ProjectFault):
    """The text is no TOML document in UTF-8."""

    number = 201
    text = "the text is no TOML document in UTF-8"


class ProjectMissingField(ProjectFault):
    """A needed key is absent, or a value is of another kind."""

    number = 202
    text = "a needed key is absent, or a value is of another kind"


class ProjectOutOfRange(ProjectFault):
    """A value is outside its range."""

    number = 203
    text = "a value is outside its range"


class ProjectRepeatedAlias(ProjectFault):
    """Two groups have one alias."""

    number = 204
    text = "two groups have one alias"


class ProjectRepeatedStation(ProjectFault):
    """Two slaves have one station address."""

    number = 205
    text = "two slaves have one station address"


class ProjectRepeatedSyncManager(ProjectFault):
    """Two areas of a slave have one sync manager."""

    number = 206
    text = "two areas of a slave have one sync manager"


class ProjectOverlappingAreas(ProjectFault):
    """Two areas of a slave overlap in its memory."""

    number = 207
    text = "two areas of a slave overlap in its memory"


class ProjectRepeatedVariable(ProjectFault):
    """A variable is named by two entries."""

    number = 208
    text = "a variable is named by two entries"


class ProjectUnknownPdo(ProjectFault):
    """An assigned PDO is not one offered PDO."""

    number = 209
    text = "an assigned PDO is not one offered PDO"


class ProjectAreaTooBig(ProjectFault):
    """An area has more bits than a datagram, 11,888."""

    number = 210
    text = "an area has more bits than a datagram, 11,888"


class ProjectNotOneGroup(ProjectFault):
    """The text is a project, but not one group's."""

    number = 212
    text = "the text is a project, but not one group's"


class Busy(Fault):
    """Another call with the handle runs: nothing was done."""

    number = 253
    text = "another call with the handle runs: nothing was done"


class Misused(Fault):
    """An argument is outside its range, or the handle is not one for this call."""

    number = 254
    text = "an argument is outside its range, or the handle is not one for this call"


class Closed(Fault):
    """The handle is closed."""

    number = 255
    text = "the handle is closed"


def _leaves(kind: type[Fault]) -> list[type[Fault]]:
    below = kind.__subclasses__()
    return [leaf for it in below for leaf in _leaves(it)] if below else [kind]


#: each fault by its number
FAULTS: dict[int, type[Fault]] = {fault.number: fault for fault in _leaves(Fault)}
