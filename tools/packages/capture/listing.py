"""The frames of a run in words, by the names of its project."""

from capture.frames import APRD, APWR, Datagram, read_frame
from capture.playing import Passed, Play
from line.describing import Describer
from projects.names import names_of


def listing(play: Play) -> list[str]:
    """A line for each frame: its number in the capture, which way it went, and what its datagrams carry."""
    project = play.project()
    describer = Describer(project, names_of(project))
    return [frame_line(number, passed, describer) for number, passed in enumerate(play.frames, 1)]


def frame_line(number: int, passed: Passed, describer: Describer) -> str:
    """A frame in words; of one that came back also the working counters."""
    try:
        datagrams = read_frame(passed.content).datagrams
    except IndexError:
        datagrams = []
    words = [datagram_words(datagram, passed.is_back, describer) for datagram in datagrams] or ["it can't be read"]
    return f"{number} {'back' if passed.is_back else 'out'}: {'; '.join(words)}"


def datagram_words(datagram: Datagram, is_back: bool, describer: Describer) -> str:
    """What a datagram carries, and its working counter where it came back."""
    if datagram.command in (APRD, APWR):
        carried = "an alias is read by position" if datagram.command == APRD else "a station address is written by position"
    else:
        carried = describer.sent(datagram)
    return f"{carried}, counter {datagram.counter}" if is_back else carried
