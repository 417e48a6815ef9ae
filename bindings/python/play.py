"""Plays a script of the program hotline: project text, a line `%%` and commands on standard input, what each answers on
standard output."""

import sys

from player import Player


def main():
    project, _, commands = sys.stdin.buffer.read().partition(b"\n%%\n")
    player, lines = Player(project + b"\n"), []
    for line in commands.splitlines():
        lines.append(line)
        if line.split() and (lines[0] != b"declare" or line == b"%%"):
            print("".join(f"{answer}\n" for answer in player.answer(b"\n".join(lines))), end="")
            lines = []


main()
