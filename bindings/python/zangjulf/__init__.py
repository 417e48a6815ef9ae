"""Zangjulf's core from Python, by ctypes: the configuration and process image of an EtherCAT line that changes while it runs.

    with zangjulf.Line(text) as line:
        line.write_all(pass_frame)
        for arrival in line.exchange(line.ready, pass_frame):
            ...

Each method is a call of the C library (include/zangjulf.h). What the library refuses is raised as an exception with the fault's
name, as `zangjulf.NothingOwed`; nothing changed then. A number that the library's type doesn't hold is a `ValueError`. Threads may
share a line or a seat: its calls run one after the other, and each returns its own frames and data. Neither is copied or pickled. Bytes
are handed in as `bytes`, `bytearray` or `memoryview`, without a copy where they can be written; frames come as `bytes`.
"""

from .answers import (
    Arrival, Arrived, Block, BlockOutcome, BlockOutcomeKind, Cost, Counters, Datagram, Image, ImageSizes, LineState, Location, Outcome,
    OutcomeKind, OwedBlock, Place, Sent, Spot, State, Taken, View, Waiting,
)
from .faults import (
    FAULTS, Fault, FrameFault, ProjectFault,
    UnknownAlias, AlreadyPresent, NotPresent, Mandatory, UnknownStation, Absent, NoSuchArea, NoSuchTask, UnknownPdo,
    RepeatedPdo, AreaTooBig, TooManyDatagrams, EpochsSpent, StalePost, PostLength, NothingOwed,
    SerialsSpent, Short, NotEtherCat, BadType, BadLength, Circulating, MoreFollows, UnknownCommand, IndexMismatch,
    Memory, Room, AliasTaken, StationTaken, VariableTaken, TooManyGroups, TooManySlaves, Waits, UnderWay, Nothing, IsInput, TooWide,
    ProjectNotToml, ProjectMissingField, ProjectOutOfRange, ProjectRepeatedAlias, ProjectRepeatedStation,
    ProjectRepeatedSyncManager, ProjectOverlappingAreas, ProjectRepeatedVariable, ProjectUnknownPdo,
    ProjectAreaTooBig, ProjectNotOneGroup, Busy, Misused, Closed,
)
from .library import IMAGE, library_path, library_version
from .line import FRAMES, Line
from .seat import Look, Seat
from .slave import SLAVE_MEMORY, Slave
from .values import OTHER_SOURCE, alias_read, fmmu_off, get_bits, is_mine, locate, put_bits, station_write
from .version import VERSION as __version__

__all__ = [
    "Absent", "AliasTaken", "AlreadyPresent", "AreaTooBig", "Arrival", "Arrived", "BadLength", "BadType", "Block",
    "BlockOutcome", "BlockOutcomeKind", "Busy", "Circulating", "Closed", "Cost", "Counters", "Datagram",
    "EpochsSpent", "FAULTS", "FRAMES",
    "Fault", "FrameFault", "IMAGE", "Image", "ImageSizes", "IndexMismatch", "IsInput", "Line", "LineState", "Location", "Look", "Mandatory",
    "Memory", "Misused", "MoreFollows", "NoSuchArea", "NoSuchTask", "NotEtherCat", "NotPresent", "Nothing",
    "NothingOwed", "OTHER_SOURCE", "Outcome", "OutcomeKind", "OwedBlock", "Place", "PostLength",
    "ProjectAreaTooBig", "ProjectFault", "ProjectMissingField", "ProjectNotOneGroup", "ProjectNotToml",
    "ProjectOutOfRange", "ProjectOverlappingAreas", "ProjectRepeatedAlias", "ProjectRepeatedStation",
    "ProjectRepeatedSyncManager", "ProjectRepeatedVariable", "ProjectUnknownPdo", "RepeatedPdo", "Room",
    "SLAVE_MEMORY", "Seat", "Sent", "SerialsSpent", "Short", "Slave", "Spot", "StalePost", "State", "StationTaken", "Taken",
    "TooManyDatagrams", "TooManyGroups", "TooManySlaves", "TooWide", "UnknownAlias", "UnknownCommand", "UnknownPdo",
    "UnderWay", "UnknownStation", "VariableTaken", "View", "Waiting", "Waits", "__version__", "alias_read", "fmmu_off", "get_bits",
    "is_mine", "library_path", "library_version", "locate", "put_bits", "station_write",
]
