"""The commands of the program hotline over the library (docs/use/PROGRAM.md): each is answered at once, in hotline's words.

`Player(text).answer(line)` returns the lines that hotline prints for a command. The simulated line is the library's own slaves. What
tasks read is kept here: the good answers of the present epoch.
"""

import re
from itertools import count

import zangjulf

NUMBER = re.compile(r"([0-9]{1,20})|0x([0-9A-Fa-f]{1,16})")
LAST_TASK = 7
#: the most posts of a task that wait, and the most bytes that are read of a slave's memory at once
WAITING, MOST_PEEKED = 4, 1486
#: the commands of edits, and the calls that carry them out
EDITS = {"connect": "connect", "disconnect": "disconnect", "remap": "remap", "move": "move_area"}
LOOKS = ("layout", "regs", "show", "place", "read", "view", "peek", "scan")
COMMANDS = {*EDITS, *LOOKS, "write", "send", "arrive", "post", "take", "name", "program", "cycle", "poke", "declare"}
#: where a frame of one datagram has its command, station address, data of two bytes, and their working counter
COMMAND, STATION, DATA, COUNTER = 16, slice(18, 20), slice(26, 28), slice(28, 30)
FPWR, STATION_REGISTER = 5, slice(0x10, 0x12)


class Unprogrammed(Exception):
    """The program sends no task while a register block is owed: how many are."""


class Player:
    """A line of the library that answers hotline's commands. A text that is no project raises the library's fault."""

    def __init__(self, text):
        self.line = zangjulf.Line(text)
        self.slaves, self.inputs, self.posts = {}, {}, []
        self.renew_slaves(0)

    def answer(self, lines, asks=False):
        """The lines that hotline prints for a command, a `declare` with its document. `ValueError` where it reads no command. With
        `asks` an edit isn't carried out."""
        head, _, document = lines.partition(b"\n")
        name, *words = head.decode().split()
        if name not in COMMANDS:
            raise ValueError(name)
        try:
            if name == "declare":
                return [self.edit("declare", asks, document.rpartition(b"%%")[0])]
            if name in EDITS:
                return [self.edit(name, asks, *map(number, words))]
            plain = name in ("arrive", "poke", "post")
            return list(getattr(self, name)(*(words if plain else map(number, words))))
        except zangjulf.ProjectFault as fault:
            return [project_fault("declare", fault)]
        except zangjulf.Fault as fault:
            return [f"refused {fault.number} {type(fault).__name__}" + (f" {fault.detail}" if fault.number == 12 else "")]
        except Unprogrammed as owed:
            return [f"refused 17 Unprogrammed {owed}"]
        except TypeError as error:
            raise ValueError(name) from error

    def renew_slaves(self, alias):
        """Simulated slaves for those of the line: a slave that comes is fresh, and the first of a group has its alias."""
        stations = found(self.line.station)
        come = [station for station in stations if station not in self.slaves]
        fresh = {station: zangjulf.Slave(0 if place else alias) for place, station in enumerate(come)}
        self.slaves = {station: fresh.get(station) or self.slaves[station] for station in stations}

    def edit(self, name, asks, *arguments):
        """The line of an edit, which begins an epoch. What it would cost is asked before it is carried out."""
        if name == "remap":
            arguments = (*arguments[:2], arguments[2:])
        call = getattr(self.line, EDITS.get(name, name))
        cost = call(*arguments, asks=True)
        if not asks:
            assert cost == call(*arguments), "an edit does what its cost says"
            self.inputs.clear()
            self.renew_slaves(arguments[0] if name == "connect" else 0)
        return f"epoch {cost.epoch} recut {cost.recut} moved {cost.moved}"

    def blocks(self):
        """The register blocks of the line, by station address and register."""
        slaves = ((station, found(lambda place: self.line.block(station, place))) for station in self.slaves)
        return {(station, block.start): block.bytes for station, blocks in slaves for block in blocks}

    def owed_blocks(self):
        """The station address and the register of each owed block, in the order of writing."""
        return [(block.station, block.start) for block in found(self.line.owed_block)]

    def passed(self, frame):
        """A frame as it comes back; a write by station address goes to the slaves with that address alone."""
        back, by_station = bytearray(frame), frame[COMMAND] == FPWR
        for slave in self.slaves.values():
            if not by_station or slave.memory[STATION_REGISTER] == frame[STATION]:
                slave.process(back)
        return back

    def layout(self):
        yield f"epoch {self.line.epoch}"
        for task in range(LAST_TASK + 1):
            datagrams = found(lambda number: self.line.datagram(task, number))
            if datagrams:
                yield f"task {task} parts {' '.join(map(str, self.line.image_sizes(task)))}"
            for place, it in enumerate(datagrams):
                yield f"datagram {place} address {it.address:#010x} length {it.length} expected {it.expected}"

    def regs(self, station):
        self.line.position(station)
        for place, block in enumerate(found(lambda it: self.line.block(station, it))):
            # sync managers begin at 0x0800, 8 bytes each; FMMUs at 0x0600, 16 bytes each
            index = (block.start - 0x0600) // 16 if place % 2 else (block.start - 0x0800) // 8
            yield f"{'fmmu' if place % 2 else 'sm'} {index} at {block.start:#06x}: {block.bytes.hex(' ')}"

    def place(self, variable):
        it = self.line.place(variable)
        if it is None:
            return ["none"]
        direction = "in" if it.is_input else "out"
        return [f"var {variable} task {it.task} datagram {it.datagram} bit {it.bit} bits {it.bits} dir {direction}"]

    def show(self, task, datagram):
        check_tasks(task)
        frame = self.line.preview(task, datagram)
        return [f"frame {self.line.next_serial}: {frame.hex()}" if frame else "none"]

    def sent(self, tasks):
        """The frames in which tasks are sent, and the first one's serial. None is sent while a register block is owed. The program doesn't
        wait for slaves outside the line: they are unplugged."""
        if not tasks or len(set(tasks)) < len(tasks):
            raise ValueError("send")
        check_tasks(*tasks)
        if self.line.owed:
            raise Unprogrammed(self.line.owed)
        for station in {station for task in tasks for station in self.line.held_by(task)}:
            self.line.unplugged(station)
        return self.line.send(*tasks)

    def send(self, *tasks):
        serial, frames = self.sent(tasks)
        return [f"sent {number}: {frame.hex()}" for number, frame in enumerate(frames, serial)] or ["no frame"]

    def write(self):
        serial = self.line.next_serial
        return [f"sent {serial}: {self.line.next_write().hex()}"]

    def arrive(self, words):
        return self.arrived(bytes.fromhex(words))

    def arrived(self, frame):
        """What an arrival is answered; good answers are kept."""
        arrival, lines = self.line.arrive(frame), []
        for it in arrival.outcomes:
            if it.kind is zangjulf.OutcomeKind.INPUTS:
                self.inputs[it.task, it.datagram] = it.data
                lines.append(f"inputs {it.task} {it.datagram}")
            elif it.kind is zangjulf.OutcomeKind.WRONG_COUNT:
                lines.append(f"wrong count {it.expected} {it.got}")
            else:
                lines.append("stale")
        lines += ["write done" if it.kind is zangjulf.BlockOutcomeKind.WRITTEN else "write missed" for it in arrival.blocks]
        return ["stale"] if arrival.answers is zangjulf.Arrived.STALE else lines

    def read(self, task):
        check_tasks(task)
        yield f"epoch {self.line.epoch}"
        for place, _ in enumerate(found(lambda it: self.line.datagram(task, it))):
            data = self.inputs.get((task, place))
            yield f"slot {place} {'none' if data is None else data.hex()}"

    def post(self, task_word, *settings):
        task = number(task_word)
        check_tasks(task)
        outputs = bytearray(self.line.image_sizes(task).outputs)
        for variable, value in (map(number, setting.split("=")) for setting in settings):
            it = self.line.place(variable)
            wrong = ["NoSuchVariable"] if it is None else [
                None, it.is_input and "IsInput", it.task != task and "OtherTask", value >> it.bits and "TooWide",
            ]
            if refused := first_of(wrong):
                return [refused]
            zangjulf.put_bits(outputs, it.image_bit, it.bits, value)
        if sum(waiting == task for waiting, _, _ in self.posts) == WAITING:
            return ["refused 5 NoSpare"]
        self.posts.append((task, self.line.epoch, outputs))
        return ["posted"]

    def take(self):
        waiting, self.posts = sorted(self.posts, key=lambda post: post[0]), []
        current = [post for post in waiting if post[1] == self.line.epoch]
        for post in current:
            self.line.post(*post)
        return [f"taken {len(current)} refused {len(waiting) - len(current)}"]

    def view(self, task, variable):
        check_tasks(task)
        it = self.line.place(variable)
        data = self.inputs.get((it.task, it.datagram)) if it else None
        wrong = ["NoSuchVariable"] if it is None else [
            None, not it.is_input and "IsOutput", it.task != task and "OtherTask", data is None and "NotAnswered",
        ]
        if refused := first_of(wrong):
            return [refused]
        return [f"epoch {self.line.epoch} var {variable} value {zangjulf.get_bits(data, it.bit, it.bits)}"]

    def scan(self):
        backs = [self.passed(zangjulf.alias_read(place)) for place, _ in enumerate(self.slaves)]
        return [f"slot {place} alias {int.from_bytes(back[DATA], 'little')}" for place, back in enumerate(backs)]

    def name(self):
        backs = [self.passed(zangjulf.station_write(place, station)) for place, station in enumerate(self.slaves)]
        return [f"named {sum(int.from_bytes(back[COUNTER], 'little') == 1 for back in backs)}"]

    def program(self):
        done = 0
        while self.line.owed and self.arrived(self.passed(self.line.next_write())) == ["write done"]:
            done += 1
        return [f"written {done} owed {self.line.owed}"]

    def cycle(self, *tasks):
        backs = [self.passed(frame) for frame in self.sent(tasks).frames]
        return [line for back in backs for line in self.arrived(back)] or ["no frame"]

    def memory(self, station, address, size):
        """The memory of a slave of the line, which must have some bytes."""
        self.line.position(station)
        if address + size > zangjulf.SLAVE_MEMORY:
            raise ValueError("memory")
        return self.slaves[station].memory

    def poke(self, station, address, content):
        data, at = bytes.fromhex(content), number(address)
        self.memory(number(station), at, len(data))[at : at + len(data)] = data
        return ["poked"]

    def peek(self, station, address, size):
        if not 1 <= size <= MOST_PEEKED:
            raise ValueError("peek")
        return [f"mem {address:#06x}: {self.memory(station, address, size)[address : address + size].hex(' ')}"]


def number(word):
    """The number that a word is, decimal or hexadecimal."""
    it = NUMBER.fullmatch(word)
    value = -1 if it is None else int(it[1]) if it[1] else int(it[2], 16)
    if not 0 <= value < 1 << 64:
        raise ValueError(word)
    return value


def found(looked_up):
    """What is looked up by 0, 1, 2 and so on, up to the first number with nothing."""
    return list(iter(lambda numbers=count(): looked_up(next(numbers)), None))


def check_tasks(*tasks):
    """Refuses a task over 7."""
    if max(tasks) > LAST_TASK:
        raise zangjulf.NoSuchTask()


def first_of(wrong):
    """The first refusal of a list, which numbers them from 1."""
    return next((f"refused {place} {words}" for place, words in enumerate(wrong, 1) if words), None)


def project_fault(what, fault):
    """A project's fault in hotline's words."""
    return f"{what} fault {fault.number - 200} {type(fault).__name__.removeprefix('Project')}"
