"""What the package refuses, and how it names it: python3 refusals.py PROJECT [LAYOUT]. It ends with an error at the first that is
another. LAYOUT is what ci/embed/layout.c prints of the header's structs; the package's are compared with them."""

import copy
import ctypes
import pickle
import re
import sys
import threading
from pathlib import Path

import zangjulf
from zangjulf import library


def raises(fault, call, *arguments):
    """Whether a call raises exactly this exception."""
    try:
        call(*arguments)
    except Exception as raised:
        assert type(raised) is fault, f"{raised!r} in place of {fault}"
        return raised
    raise AssertionError(f"{fault} isn't raised")


def faults_are_those_of_the_header():
    """Each number, name and text, as the header has them."""
    header = Path(__file__).resolve().parents[2] / "include/zangjulf.h"
    listed = re.findall(r'ANSWER\((\w+), (\d+), "(.*)"\)', header.read_text(encoding="utf-8"))
    answers = {int(number): (name, text) for name, number, text in listed}
    del answers[0]  # done
    assert set(answers) == set(zangjulf.FAULTS)
    for number, fault in zangjulf.FAULTS.items():
        name, text = answers[number]
        assert (fault.__name__.upper(), fault.text) == (name.replace("_", ""), text)


def structs_are_those_of_the_header(layout):
    """Each struct's bytes, and each field's place and bytes."""
    rows = [line.split() for line in layout.read_text(encoding="utf-8").splitlines()]
    for struct, field, at, size in rows:
        name = "".join(word.capitalize() for word in struct.split("_")[1:]) or "Handle"
        declared = getattr(library, name)
        if field == "-":
            expected, fields = (0, ctypes.sizeof(declared)), sum(row[0] == struct for row in rows) - 1
            assert len(declared._fields_) == fields, f"{struct} has {fields} fields"
        else:
            expected = (getattr(declared, field).offset, getattr(declared, field).size)
        assert (int(at), int(size)) == expected, f"{struct} {field} is at {at}, of {size} bytes"


def refusals(text):
    raised = raises(zangjulf.ProjectNotToml, zangjulf.Line, b"[[")
    assert isinstance(raised, zangjulf.ProjectFault) and str(raised) == "the text is no TOML document in UTF-8"
    fault, location = zangjulf.locate(b"\n[[")
    assert fault is zangjulf.ProjectNotToml and location.line == 2
    fault, location = zangjulf.locate(b"[[slave]]\nstation = 7\n[[slave]]\nstation = 7\n")
    assert fault is zangjulf.ProjectRepeatedStation and (location.first.slave, location.place.slave) == (0, 1)
    assert zangjulf.locate(text) is None
    with zangjulf.Line(text) as line:
        for copied in (copy.copy, copy.deepcopy, pickle.dumps):
            raises(TypeError, copied, line)
        # every FMMU is unknown: task 0 waits for its four sync managers' blocks and all six FMMUs'
        assert raises(zangjulf.Waits, line.send, 0).detail == zangjulf.Waiting(0, 10, 0)
        assert isinstance(raises(zangjulf.Short, line.arrive, b""), zangjulf.FrameFault)
        raises(zangjulf.NotPresent, line.disconnect, 100)
        raises(zangjulf.IsInput, line.put_value, 12, 0, 1, bytearray(14))
        raises(zangjulf.StalePost, line.put_value, 2, 1, 1, bytearray(14))
        raises(zangjulf.StalePost, line.value, 12, 1, bytes(26))
        raises(TypeError, line.put_value, 2, 0, 1, bytes(14))
        raises(ValueError, line.place, -1)
        raises(ValueError, line.image_sizes, 256)
        assert line.places([2, 101]) == {2: line.place(2)} and line.places([]) == {}
    raises(zangjulf.Misused, zangjulf.Line, text, 65)
    raises(ValueError, zangjulf.Line, text, -1)
    raises(zangjulf.Closed, lambda: line.epoch)
    raises(zangjulf.Misused, zangjulf.get_bits, b"", 0, 1)
    for count in (0, 17):
        raises(zangjulf.Misused, zangjulf.fmmu_off, 2001, count)
    slave, off = zangjulf.Slave(station=2001), bytearray(zangjulf.fmmu_off(2001, 16))
    slave.memory[0x600:0x800] = b"\1" * 0x200
    slave.process(off)
    assert not any(slave.memory[0x600:0x700]) and all(slave.memory[0x700:0x800]) and (len(off), off[-2]) == (284, 1)


def seats(text):
    line = zangjulf.Line(text)
    raises(zangjulf.NoSuchTask, line.seat, 8)
    raises(zangjulf.Misused, line.look, 0, 1)
    seat = line.seat(1)
    for copied in (copy.copy, copy.deepcopy, pickle.dumps):
        raises(TypeError, copied, seat)
    open_line, no_data = zangjulf.LineState.OPEN, zangjulf.State.NO_DATA
    assert seat.view() == zangjulf.View(1, 0, 0, b"\0\0", 1, [None], 0, no_data, 0, False, open_line) and seat.outputs() == b"\0"
    line.post(1, 0, b"\5")
    line.show()
    assert seat.view() == zangjulf.View(2, 0, 0, b"\0\0", 1, [None], 0, no_data, 0, False, open_line)
    outputs = seat.outputs()
    assert outputs == b"\5"
    raises(zangjulf.StalePost, seat.post, 1, outputs)
    raises(zangjulf.PostLength, seat.post, 0, b"")
    raises(ValueError, seat.post, -1, outputs)
    assert [seat.post(0, bytes([value])) for value in range(9)] == list(range(1, 10))
    assert line.take_posts() == zangjulf.Taken([1], []) and line.take_posts() == zangjulf.Taken([], [])
    assert seat.post(0, outputs) == 10
    line.connect(102)
    assert line.take_posts() == zangjulf.Taken([1], []), "the touch probe is in task 0"
    seat.post(0, b"\6")
    line.connect(100)
    assert line.take_posts() == zangjulf.Taken([], [1])
    line.show()
    view = seat.view()
    assert (view.taken, view.is_refused, view.epoch, view.task_epoch) == (11, True, 2, 2) and seat.outputs()[0] == 5
    other = line.seat(1)
    assert seat.view().line is zangjulf.LineState.REPLACED
    raises(zangjulf.Closed, seat.post, 2, seat.outputs())
    assert other.view().showing == 1 and other.outputs()[0] == 5
    line.close()
    raises(zangjulf.Closed, line.show)
    assert (other.view().epoch, other.view().line) == (2, zangjulf.LineState.CLOSED)
    raises(zangjulf.Closed, other.post, 2, other.outputs())
    with seat, other:
        pass
    raises(zangjulf.Closed, seat.view)


def seats_that_only_look(text):
    """As many as the line was opened for, each with its number, of any task."""
    with zangjulf.Line(text, lookers=2) as line, line.look(0, 1) as first, line.look(1, 1) as second:
        raises(zangjulf.Misused, line.look, 2, 1)
        line.post(1, 0, b"\5")
        line.show()
        assert [look.view().showing for look in (first, second)] == [2, 2] and first.outputs() == second.outputs() == b"\5"
        with line.look(0, 0) as next_one:
            assert first.view().line is zangjulf.LineState.REPLACED and next_one.view().outputs == 14


def tasks_wait(text):
    """A tool that comes holds all tasks up until it is cleared, and then its own alone."""
    with zangjulf.Line(text) as line:
        slaves = [zangjulf.Slave(station=station) for station in (1001, 1002, 1003, 1004)]

        def pass_frame(frame):
            passing = bytearray(frame)
            for slave in slaves:
                slave.process(passing)
            return passing

        assert line.ready == [] and line.held_by(7) == [1002, 1003, 1004] and line.held_by(8) == []
        assert line.write_all(pass_frame) and line.ready == list(range(8))
        assert line.connect(100).waits == (1,)
        assert line.ready == [] and line.held_by(0) == [2001] and raises(zangjulf.Waits, line.send, 1, 0).detail.task == 1
        line.cleared(2001)
        assert line.ready == [0, 2, 3, 4, 5, 6, 7] and line.held_by(1) == [1004, 2001]
        assert len(line.send(0).frames) == 1 and raises(zangjulf.Waits, line.send, 0, 1).detail == zangjulf.Waiting(1, 5, 0)
        raises(zangjulf.NoSuchTask, line.send, 8)
        raises(zangjulf.Misused, line.send)
        raises(zangjulf.AlreadyPresent, line.unplugged, 2001)
        raises(zangjulf.UnknownStation, line.unplugged, 1)
        raises(zangjulf.UnknownStation, line.cleared, 1)
        line.next_writes()
        raises(zangjulf.UnderWay, line.further_writes)
        line.disconnect(100)
        line.write_all(pass_frame)
        assert line.ready == [0, 2, 3, 4, 5, 6, 7] and line.held_by(1) == [2001]
        line.unplugged(2001)
        sent = line.send(0, 1)
        assert line.ready == list(range(8)) and len(sent.frames) == 1 and sent.first_serial + 1 == line.next_serial


def writing_ends(text):
    """`write_all` writes as many blocks in a frame as it holds. It gives up after so many frames in a row that confirm no block."""
    frames = []
    with zangjulf.Line(text) as line:
        axis, other = zangjulf.Slave(station=1002), zangjulf.Slave(station=1003)

        def pass_frame(frame):
            frames.append(frame)
            if len(frames) == 2:
                return None
            passing = bytearray(frame)
            for slave in (axis,) if len(frames) < 5 else (axis, other):
                slave.process(passing)
            return passing

        assert not line.write_all(pass_frame) and len(frames) == 4 and line.owed == 8
        assert not line.write_all(pass_frame, misses=1) and len(frames) == 6 and line.owed == 4
        assert line.owed_block(0).station == 1004


def a_task_has_a_seat(text):
    """A task's thread posts by its seat while the owner takes and shows: what it views never goes back."""
    with zangjulf.Line(text) as line, line.seat(1) as seat:
        line.show()
        viewed = []

        def work():
            while not viewed or viewed[-1] < 15:
                view = seat.view()
                outputs = seat.outputs()
                viewed.append(outputs[0])
                seat.post(view.epoch, bytes([min(outputs[0] + 1, 15)]))

        task = threading.Thread(target=work)
        task.start()
        while task.is_alive():
            line.take_posts()
            line.show()
        assert viewed == sorted(viewed) and set(viewed) == set(range(16))


project = Path(sys.argv[1]).read_bytes()
faults_are_those_of_the_header()
for layout in sys.argv[2:]:
    structs_are_those_of_the_header(Path(layout))
refusals(project)
seats(project)
seats_that_only_look(project)
tasks_wait(project)
writing_ends(project)
a_task_has_a_seat(project)
print("refusals: all as written")
