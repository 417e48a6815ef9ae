"""What the command lines of all tools have in common."""

import os
import sys
from collections.abc import Callable

from projects.faults import NO_ANSWER, Refusal


def status_of(tool: str, run: Callable[[list[str]], int], words: list[str]) -> int:
    """The status of a run. If it has no answer, or the answer can't be written, standard error says why."""
    try:
        if sys.stdout is None:
            raise Refusal("standard output is closed")
        status = run(words)
        sys.stdout.flush()
        return status
    except Refusal as refusal:
        complain(f"{tool}: {refusal}")
    except KeyboardInterrupt:
        complain(f"{tool}: interrupted")
    except BrokenPipeError:
        discard_output()
    except OSError as error:
        complain(f"{tool}: standard output: {error.strerror}")
        discard_output()
    return NO_ANSWER


def complain(words: str) -> None:
    """Writes to standard error, if there is one."""
    if sys.stderr is not None:
        print(words, file=sys.stderr)


def discard_output() -> None:
    """Standard output goes nowhere from now on, so that the end of the run finds nothing to write."""
    os.dup2(os.open(os.devnull, os.O_WRONLY), sys.stdout.fileno())
