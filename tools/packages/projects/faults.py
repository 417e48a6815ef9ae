"""What ends a tool's run, and its exit status."""

FINE, FINDINGS, NO_ANSWER = 0, 1, 2


class Refusal(Exception):
    """Why a tool gives no answer, in words for whoever asked: an input that can't be read, or a program that failed."""
