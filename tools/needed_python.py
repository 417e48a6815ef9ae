"""Ends the run of a tool, with one line, on a Python older than the tools need, and names the folder of the tools' packages. It runs
on each of these."""

import os
import sys

NEEDED = (3, 11)

if sys.version_info[:2] < NEEDED:
    tool = os.path.basename(sys.argv[0])
    found = tuple(sys.version_info[:2])
    sys.stderr.write("%s: needs Python %d.%d or later; this is %d.%d\n" % ((tool,) + NEEDED + found))
    sys.exit(2)

sys.path.insert(1, os.path.join(os.path.dirname(os.path.abspath(__file__)), "packages"))
