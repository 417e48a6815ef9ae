"""The command line of `tools/capture`."""

import argparse
from pathlib import Path

from capture import machine
from capture.listing import listing
from capture.pcap import capture
from capture.playing import played
from line.live import library_player
from projects.asking import add_options, program_of
from projects.faults import FINE, Refusal
from projects.files import content_of, parted


def run(words: list[str]) -> int:
    """Writes the frames of a run as a capture file."""
    parser = argparse.ArgumentParser(
        prog="tools/capture",
        description="Writes the frames of a run, both ways, as a capture file that Wireshark opens.",
        epilog="Status: 0 written, 2 the input can't be read or the program refuses it. docs/use/TOOLS.md has examples.",
    )
    parser.add_argument("input", help="an input of hotline: a text, a line %%%% and commands; - for stdin")
    parser.add_argument("capture", help="the file that is written")
    parser.add_argument("--list", action="store_true", help="print what each frame carries, by the names of the text")
    add_options(parser)
    arguments = parser.parse_args(words)
    text, commands = parted(content_of(arguments.input))
    player = library_player()
    simulation = player.zangjulf if player else machine
    play = played(program_of(arguments), simulation, Path(arguments.input).stem, text, commands)
    frames = [passed.content for passed in play.frames]
    try:
        Path(arguments.capture).write_bytes(capture(frames))
    except OSError as error:
        raise Refusal(f"{arguments.capture}: {error.strerror}") from error
    if arguments.list:
        print("\n".join(listing(play)))
    print(f"{len(frames)} frames are written to {arguments.capture}")
    return FINE
