"""Captures: the simulated line beside the program, in plain Python and with the library's slaves, and what is written."""

import os
import re
import shutil
import struct
import subprocess
from pathlib import Path
from types import ModuleType
from unittest import mock

from checks import TOOLS, Checks
from named_changer import named_changer

from capture import machine
from capture.command import run as write_capture
from capture.frames import APRD, APWR, FPWR, LRW, Datagram, Frame, frame_bytes, read_frame
from projects.faults import Refusal

EXAMPLES = TOOLS.parent / "examples"
# Frames of each run both ways, counted in its script: a frame by `show`, two by each write and station address along the
# line, and two or more by `cycle`.
RUNS = {"tool_changer_frames": 45, "tool_changer_day": 115}
# A slave with the station address 1001 whose FMMU 0 writes logical bits 0 and 1 from 0x01000000 on to 0x1100, and whose
# FMMU 1 reads the 12 logical bits from byte 1 on from 0x1180: the blocks of the README's first run.
BLOCKS = {
    0x0010: "e903",
    0x0600: "00000001010000010011000201000000",
    0x0610: "01000001020000038011000101000000",
    0x1180: "340a",
}
PROCESS_DATA = 0x01000000
MACHINE_ROWS = [
    ("both ways", Datagram(LRW, PROCESS_DATA, bytes.fromhex("020000")), "02340a", 3, 0x1100, "02"),
    ("bits that no FMMU maps stay", Datagram(LRW, PROCESS_DATA, bytes.fromhex("fcfff5")), "fc34fa", 3, 0x1100, "00"),
    ("another address", Datagram(LRW, 2 * PROCESS_DATA, b"\x02"), "02", 0, 0x1100, "00"),
    ("inputs alone", Datagram(LRW, PROCESS_DATA + 1, b"\0"), "34", 1, 0x1100, "00"),
    ("a write by station", Datagram(FPWR, 1001 + 0x1100 * 0x10000, b"\x07"), "07", 1, 0x1100, "07"),
    ("a write of another station", Datagram(FPWR, 1002 + 0x1100 * 0x10000, b"\x07"), "07", 0, 0x1100, "00"),
    ("a write past memory", Datagram(FPWR, 1001 + 0x2FFF * 0x10000, b"\x07\x07"), "0707", 0, 0x2FFE, "0000"),
    ("the alias is read", Datagram(APRD, 0x0012 * 0x10000, b"\0\0"), "6400", 1, 0x0012, "6400"),
    ("the alias isn't written", Datagram(APWR, 0x0012 * 0x10000, b"\x01\x01"), "0101", 1, 0x0012, "6400"),
    ("another position", Datagram(APWR, 0xFFFF + 0x1100 * 0x10000, b"\x07"), "07", 0, 0x1100, "00"),
]
STATION = re.compile(r"station = (\d+)")
BLOCK = re.compile(r"at 0x[0-9a-f]{4}: ([0-9a-f ]+)$")
SYNC_MANAGER_FIELDS = [f"ecat.syncman.{name}" for name in ("start", "len", "ctrlstatus", "enable")]
FMMU_FIELDS = [
    f"ecat.fmmu.{name}"
    for name in ("lstart", "llen", "lstartbit", "lendbit", "pstart", "pstartbit", "type", "activate")
]
# Frames 1 to 8 are the station addresses of four slaves, 9 a write that gets no answer, 10 to 33 the twelve blocks.
LISTED = [
    "1 out: a station address is written by position",
    "2 back: a station address is written by position, counter 1",
    "9 out: slave 1002 axis X, sync manager 2",
    "10 out: slave 1002 axis X, sync manager 2",
    "11 back: slave 1002 axis X, sync manager 2, counter 1",
    "34 out: task 0 motion datagram 0; task 1 slow datagram 0",
    "35 back: task 0 motion datagram 0, counter 6; task 1 slow datagram 0, counter 3",
    "36 back: it can't be read",
]
# Inputs with all commands of the simulated line, and with tools that come and go; the first one has a group with an alias.
BOTH_WAYS = ("declared_tool", "tool_changer_day")
WRONG_PROGRAMS = [
    ("a program that counts one station too many", "^named 5$/named 6"),
    ("a program that reads another memory", "^mem 0x1100: 01$/mem 0x1100: 00"),
]


def check(checks: Checks) -> None:
    """All checks of captures."""
    check_machine(checks, machine)
    check_frames(checks)
    for name, count in RUNS.items():
        check_run(checks, name, count)
    check_listing(checks)
    check_blocks(checks)
    check_refusals(checks)


def slave_of(simulation: ModuleType) -> machine.Slave:
    """The slave of the rows."""
    slave = simulation.Slave(100)
    for at, content in BLOCKS.items():
        slave.memory[at : at + len(content) // 2] = bytes.fromhex(content)
    return slave


def check_machine(checks: Checks, simulation: ModuleType) -> None:
    """What a slave makes of a datagram, by rows worked out by hand."""
    for label, sent, data, counter, at, memory in MACHINE_ROWS:
        slave, frame = slave_of(simulation), bytearray(frame_bytes(Frame(0, [sent])))
        slave.process(frame)
        back = read_frame(frame).datagrams[0]
        found = back.data.hex(), back.counter, slave.memory[at : at + len(memory) // 2].hex()
        checks.equal(f"{label}, in {simulation.__name__}", (data, counter, memory), found)


def check_library(checks: Checks, zangjulf: ModuleType) -> None:
    """The library's slaves obey the same rows, and give the same captures as those in plain Python. They are used if the library
    is there: with wrong ones the answers differ, and no file is written."""
    check_machine(checks, zangjulf)
    for name in BOTH_WAYS:
        by_library, plain = captured(checks, name), plainly_captured(checks, name)
        checks.equal(f"the library's slaves give a capture of {name}", True, len(by_library) > 24)
        checks.equal(f"both captures of {name}", plain.hex(), by_library.hex())
    path, nobody = checks.scratch / "misled.pcap", zangjulf.fmmu_off(0xFFFF, 1)
    for part, name in ((zangjulf.Slave, "process"), (zangjulf, "alias_read"), (zangjulf, "station_write")):
        with mock.patch.object(part, name, lambda *_: nobody):
            try:
                said = str(write_capture([str(EXAMPLES / f"{BOTH_WAYS[0]}.in"), str(path), "--program", str(checks.program)]))
            except Refusal as refusal:
                said = str(refusal)
        checks.equal(f"a wrong {name} of the library: {said}", (True, False), ("is worked out" in said, path.exists()))
        path.unlink(missing_ok=True)


def captured(checks: Checks, name: str) -> bytes:
    """The capture of an example; nothing if none is written."""
    path = checks.scratch / f"{name}.pcap"
    path.unlink(missing_ok=True)
    ended = checks.tool("capture", EXAMPLES / f"{name}.in", path, "--program", checks.program)
    checks.equal(f"the capture of {name}", (0, ""), (ended.status, ended.complaint))
    return path.read_bytes() if path.exists() else b""


def plainly_captured(checks: Checks, name: str) -> bytes:
    """The capture of an example with the slaves in plain Python, since no library is found."""
    with mock.patch.dict(os.environ, ZANGJULF_LIBRARY="/nowhere"):
        return captured(checks, name)


def check_frames(checks: Checks) -> None:
    """A frame of two datagrams, byte for byte as ETG.1000.4 lays it out."""
    content = bytes.fromhex(
        "ffffffffffff 02 0000000006 88a4 1b10 0c06 00000001 0280 0000 340a 0100 0c06 00000002 0100 0000 02 0100"
    ).ljust(60, b"\0")
    frame = Frame(6, [Datagram(LRW, 0x01000000, b"\x34\x0a", 1), Datagram(LRW, 0x02000000, b"\x02", 1)])
    checks.equal("a frame as bytes", content.hex(), frame_bytes(frame).hex())
    checks.equal("a frame that is read", frame, read_frame(content))


def frames_in(capture: bytes) -> list[bytes]:
    """The frames of a capture file."""
    at, frames = 24, []
    while at < len(capture):
        size = struct.unpack_from("<I", capture, at + 8)[0]
        frames.append(capture[at + 16 : at + 16 + size])
        at += 16 + size
    return frames


def check_run(checks: Checks, name: str, count: int) -> None:
    """A capture of an example: as many frames as its script sends; tshark marks none malformed."""
    frames = frames_in(captured(checks, name))
    checks.equal(f"frames of {name}", count, len(frames))
    written = (EXAMPLES / f"{name}.out").read_text().split("\n")
    sent = [line.split()[2] for line in written if line.startswith(("sent ", "frame "))]
    checks.equal(f"printed frames of {name}", [], [frame for frame in sent if bytes.fromhex(frame) not in frames])
    check_in_wireshark(checks, name, count)


def check_in_wireshark(checks: Checks, name: str, count: int) -> None:
    """What tshark reads in a capture, where it is installed."""
    if shutil.which("tshark") is None:
        return
    path = checks.scratch / f"{name}.pcap"
    for condition, wanted in (("ecat", count), ("_ws.malformed", 0)):
        run = subprocess.run(["tshark", "-r", path, "-Y", condition], capture_output=True, timeout=60)
        checks.equal(f"{condition} frames of {name}", wanted, len(run.stdout.splitlines()))


def check_listing(checks: Checks) -> None:
    """What the frames of a named line carry, in words."""
    commands = "name\nwrite\nprogram\ncycle 0 1\narrive 00\n"
    named = checks.file("named.in", f"{named_changer()}%%\n{commands}")
    ended = checks.tool("capture", "--list", named, checks.scratch / "named.pcap", "--program", checks.program)
    lines = ended.said.splitlines()
    for wanted in LISTED:
        checks.equal(f"{wanted!r} in a listing", True, wanted in lines)


def check_blocks(checks: Checks) -> None:
    """Each field of each register block that the program writes, as the dissector reads it, beside `regs`."""
    if shutil.which("tshark") is None:
        return
    text = (EXAMPLES / "tool_changer.toml").read_text()
    edits = "".join(f"connect {alias}\n" for alias in (100, 101, 200))
    path = checks.scratch / "blocks.pcap"
    written = checks.file("blocks.in", f"{text}%%\n{edits}name\nprogram\n")
    checks.tool("capture", written, path, "--program", checks.program)
    asked = "".join(f"regs {station}\n" for station in STATION.findall(text))
    _, lines = checks.hotline(f"{text}%%\n{edits}{asked}".encode())
    printed = sorted(fields_of(bytes.fromhex(found[1])) for line in lines if (found := BLOCK.search(line)))
    words = [word for field in SYNC_MANAGER_FIELDS + FMMU_FIELDS for word in ("-e", field)]
    command = ["tshark", "-r", path, "-Y", "ecat.cmd == 5 && ecat.cnt == 0", "-T", "fields", *words]
    run = subprocess.run(command, capture_output=True, timeout=60)
    read = sorted(tuple(int(word, 0) for word in line.split()) for line in run.stdout.decode().splitlines())
    checks.equal("fields of register blocks", printed, read)
    checks.equal("register blocks", True, len(read) >= 24)


def fields_of(block: bytes) -> tuple[int, ...]:
    """The fields of a block in the dissector's order, by the tables of ETG.1000.4 for sync managers and FMMUs."""
    sizes = (2, 2, 2, 2) if len(block) == 8 else (4, 2, 1, 1, 2, 1, 1, 1)
    places = [sum(sizes[:number]) for number in range(len(sizes))]
    return tuple(int.from_bytes(block[at : at + size], "little") for at, size in zip(places, sizes))


def check_refusals(checks: Checks) -> None:
    """Runs that leave no capture say why: a bad command, no project, and a program whose answers differ."""
    project = (EXAMPLES / "tool_changer.toml").read_text() + "%%\n"
    path = checks.scratch / "none.pcap"
    bad = checks.file("bad.in", project + "layout\nlayuot\n")
    ended = checks.tool("capture", bad, path, "--program", checks.program)
    checks.equal("a bad command", (2, True, False), (ended.status, "bad command" in ended.complaint, path.exists()))
    ended = checks.tool("capture", checks.file("none.in", "slave = 3\n"), path, "--program", checks.program)
    checks.equal("no project", (2, True), (ended.status, "project fault 2 MissingField" in ended.complaint))
    ended = checks.tool("capture", bad, path, "--program", "/nowhere")
    checks.equal("no program", (2, True), (ended.status, "docs/use/TOOLS.md says how it is built" in ended.complaint))
    for label, change in WRONG_PROGRAMS:
        wrong = checks.file("wrong", f"#!/bin/sh\n{checks.program} | sed 's/{change}/'\n")
        wrong.chmod(0o755)
        ended = checks.tool("capture", EXAMPLES / "tool_changer_day.in", path, "--program", wrong)
        checks.equal(label, (2, True, False), (ended.status, "is worked out" in ended.complaint, path.exists()))
