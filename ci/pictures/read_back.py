#!/usr/bin/env -S python3 -B
"""Reads pictures and reports back, and compares each number in them with what `hotline` prints for the input.

    read_back.py PROGRAM INPUT PICTURE.. [--since EPOCH | --against OTHER]

INPUT has the text, a line %% and the commands; a PICTURE ends with .svg or .html. What it shows beside the line is that
before its last edit, or what it was asked for.

Each difference is said in a line, of a picture the first twenty; the status is 1 if there is one.
"""

import argparse
import sys
from pathlib import Path
from xml.etree import ElementTree

from documents import tree_of
from picture_reading import PictureReader
from report_reading import ReportReader
from required import Required

MOST = 20


def differences(required, picture):
    """In what a picture or a report differs from what its input requires."""
    text = Path(picture).read_text()
    if picture.endswith(".svg"):
        ElementTree.fromstring(text)
    root = tree_of(text)
    found = PictureReader(required, root.first("svg")).differences()
    return found + (ReportReader(required, root).differences() if picture.endswith(".html") else [])


def main(words):
    """Compares each picture, and answers the status."""
    parser = argparse.ArgumentParser(prog="read_back.py")
    parser.add_argument("program")
    parser.add_argument("input", type=Path)
    parser.add_argument("pictures", nargs="+")
    parser.add_argument("--since", type=int)
    parser.add_argument("--against", type=Path)
    asked = parser.parse_args(words)
    required, status = Required(asked.program, asked.input, asked.since, asked.against), 0
    for picture in asked.pictures:
        for difference in differences(required, picture)[:MOST]:
            print(f"{picture}: {difference}")
            status = 1
    return status


sys.exit(main(sys.argv[1:]))
