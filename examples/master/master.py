"""The master of master.c in Python, at 100 cycles a second: unshare -n python3 examples/master/master.py PROJECT SECONDS"""

import socket
import subprocess
import sys
import time
from multiprocessing import Process, Value
from pathlib import Path

sys.path.insert(0, str(Path(__file__).parents[2] / "bindings/python"))
import zangjulf

RATE, GRIPPER, GRIPPER_STATION, GRIPPER_AREAS = 100, 100, 2001, 2
SLAVES = ((1001, 0, 0, 0), (1002, 0x1100, 0x1180, 6), (1003, 0x1100, 0x1180, 6), (1004, 0x1000, 0x1080, 1), (2001, 0x1100, 0x1180, 1))
gripper_is_there = Value("b")  # both processes know


def device(name):
    it = socket.socket(socket.AF_PACKET, socket.SOCK_RAW, socket.htons(0x88A4))
    it.bind((name, 0x88A4))
    return it


def receive(it):
    while True:
        frame, address = it.recvfrom(1514)
        if address[2] != socket.PACKET_OUTGOING:
            return bytearray(frame)


def serve_slaves(it):
    slaves = [zangjulf.Slave(station=station) for station, *_ in SLAVES]
    while True:
        frame = receive(it)
        for slave, (_, outputs, inputs, count) in zip(slaves[: 4 + gripper_is_there.value], SLAVES):
            slave.process(frame)
            slave.memory[inputs : inputs + count] = slave.memory[outputs : outputs + count]
        it.send(frame)


def run(line, it, cycles):
    def pass_frame(frame):
        it.send(frame)
        return receive(it)

    def change_tool(comes):
        gripper_is_there.value = 1  # it stays on the wire when it goes, where its FMMUs would take outputs of others
        came = pass_frame(zangjulf.fmmu_off(GRIPPER_STATION, GRIPPER_AREAS))
        assert came[26 + 16 * GRIPPER_AREAS] == 1, "the gripper isn't switched off"
        edit = line.connect if comes else line.disconnect
        edit(GRIPPER)
        line.cleared(GRIPPER_STATION)

    before, edits, longest, start = None, [0], 0, time.monotonic()
    for cycle in range(cycles):
        time.sleep(max(0, start + cycle / RATE - time.monotonic()))
        began = time.monotonic()
        if cycle and cycle % RATE == 0:
            change_tool(cycle // RATE % 2 == 1)
            edits.append(time.monotonic() - began)
        assert line.write_all(pass_frame), "a register block isn't taken"
        posted = bytes(0 if i == 7 else (cycle * 7 + i) % 256 for i in range(line.image_sizes(0).outputs))
        line.post(0, line.epoch, posted)
        came = [outcome for arrival in line.exchange((0, 1), pass_frame) for outcome in arrival.outcomes]
        assert [it.kind for it in came] == [zangjulf.OutcomeKind.INPUTS] * 2, "a wrong counter or a stale frame"
        image = line.read(0)
        assert image.state is zangjulf.State.COMPLETE, "an older answer"
        assert not cycle or image.data[14:] == before[:12], "an axis reads another value"
        before, longest = posted, max(longest, time.monotonic() - began)
    counters = line.counters(0, 0)
    assert counters.sent == counters.good == cycles, "the counters"
    print(f"cycles {cycles}, longest edit {max(edits) * 1e6:.0f} us, longest cycle {longest * 1e6:.0f} us")


subprocess.run("ip link add name ecat0 type veth peer name ecat1 && ip link set ecat0 up && ip link set ecat1 up", shell=True, check=True)
Process(target=serve_slaves, args=(device("ecat1"),), daemon=True).start()
with zangjulf.Line(Path(sys.argv[1]).read_bytes()) as line:
    run(line, device("ecat0"), int(sys.argv[2]) * RATE)
