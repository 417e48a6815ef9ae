"""Threads that share a line and a seat: python3 sharing.py PROJECT. The project has the tools 100 and 101, and outputs in tasks 0 to 3.
It ends with an error at the first frame, outcome or image that is another thread's."""

import sys
import threading
from pathlib import Path

import zangjulf

SENDINGS = 100_000
THREADS = 4

#: of each task's outputs the bits that a variable has; the others are gaps of the project, which are sent as zeros
VARIABLES = (b"\xff" * 7 + b"\0" + b"\xff" * 6, b"\x0f", b"\x03", b"\xff" * 4)


def lrw_frame(serial, address, data, counter=0):
    """A frame of one LRW datagram, as sent or with the working counter with which it returns (ETG.1000.4, 5.2 and 5.4)."""
    head = bytes([12, serial % 256]) + address.to_bytes(4, "little") + len(data).to_bytes(2, "little") + bytes(2)
    datagram = head + data + counter.to_bytes(2, "little")
    ethernet = b"\xff" * 6 + b"\2" + serial.to_bytes(5, "big") + b"\x88\xa4"
    return (ethernet + (0x1000 | len(datagram)).to_bytes(2, "little") + datagram).ljust(60, b"\0")


def in_threads(count, work):
    """Runs a function in so many threads at once, each with its number, and raises what one of them raised."""
    raised = []

    def run(number):
        try:
            work(number)
        except BaseException as fault:
            raised.append(fault)

    threads = [threading.Thread(target=run, args=(number,)) for number in range(count)]
    for thread in threads:
        thread.start()
    for thread in threads:
        thread.join()
    if raised:
        raise raised[0]


def written(line):
    """Writes all owed blocks to simulated slaves that have their station addresses: how many frames that takes."""
    stations = iter(lambda at=iter(range(2048)): line.station(next(at)), None)
    slaves = [zangjulf.Slave(station=station) for station in stations]
    frames = 0

    def pass_frame(frame):
        nonlocal frames
        frames += 1
        passing = bytearray(frame)
        for slave in slaves:
            slave.process(passing)
        return passing

    assert line.write_all(pass_frame) and line.owed == 0
    return frames


def each_thread_gets_its_own_frames(text):
    """Each thread posts and sends its task, and takes what comes back. Each frame and each outcome has the bytes of that thread."""
    with zangjulf.Line(text) as line:
        line.connect(100)
        line.connect(101)
        assert written(line) == 1, "all owed blocks fit in one frame"
        changed = [line.read(task).task_epoch for task in range(THREADS)]
        first, serials = line.next_serial, [[] for _ in range(THREADS)]

        def work(task):
            datagram, sizes, epoch = line.datagram(task, 0), line.image_sizes(task), line.epoch
            for turn in range(SENDINGS // THREADS):
                outputs = bytes((turn * 7 + task * 61 + at) % 256 & bits for at, bits in enumerate(VARIABLES[task]))
                line.post(task, epoch, outputs)
                serial, (frame,) = line.send(task)
                data = outputs + bytes(sizes.inputs)
                assert frame == lrw_frame(serial, datagram.address, data), f"task {task} gets another frame"
                assert line.preview(task, 0)[26 : 26 + len(data)] == data, f"task {task} sees another preview"
                inputs = outputs + bytes((turn + task) % 256 for _ in range(sizes.inputs))
                arrival = line.arrive(lrw_frame(serial, datagram.address, inputs, datagram.expected))
                outcome = (zangjulf.OutcomeKind.INPUTS, task, 0, datagram.expected, datagram.expected, inputs)
                assert arrival.serial == serial and arrival.outcomes == [outcome], f"task {task} gets another outcome"
                image = zangjulf.Image(epoch, changed[task], inputs, [serial], serial, zangjulf.State.COMPLETE)
                assert line.read(task) == image, f"task {task} reads another image"
                serials[task].append(serial)

        in_threads(THREADS, work)
        assert sorted(sum(serials, [])) == list(range(first, first + SENDINGS)), "each serial is sent once"
        assert all(line.counters(task, 0) == (SENDINGS // THREADS, SENDINGS // THREADS, 0, 0) for task in range(THREADS))


def edits_and_looks_meet(text):
    """One thread edits while the others look: no call meets another one, and epochs never go back."""
    with zangjulf.Line(text) as line:

        def work(number):
            if number == 0:
                for _ in range(200):
                    line.connect(100)
                    line.disconnect(100)
            else:
                looks = [line.epoch for _ in range(20_000)]
                assert looks == sorted(looks)

        in_threads(THREADS, work)
        assert line.epoch == 400


def a_seat_is_shared(text):
    """Threads view one seat while the owner shows images of two sizes: each view and all outputs are whole."""
    with zangjulf.Line(text) as line, line.seat(2) as seat:
        is_done = threading.Event()

        def work(number):
            if number:
                while not is_done.is_set():
                    view = seat.view()
                    assert (view.outputs, len(view.data)) == ((1, 4) if view.epoch % 2 else (0, 0))
                    assert len(seat.outputs()) in (0, 1)
                return
            for _ in range(500):
                line.connect(100)
                line.show()
                line.disconnect(100)
                line.show()
            is_done.set()

        in_threads(THREADS, work)


project = Path(sys.argv[1]).read_bytes()
sys.setswitchinterval(1e-5)
each_thread_gets_its_own_frames(project)
edits_and_looks_meet(project)
a_seat_is_shared(project)
print(f"sharing: {SENDINGS} sendings of {THREADS} threads, each frame, outcome and image its own")
