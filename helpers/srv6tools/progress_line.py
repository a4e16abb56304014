"""A line on a terminal that says how far a tool has come, where it takes longer than two seconds."""

import sys
import time

from .command import PROGRESS_AFTER

BETWEEN = 0.2  # seconds


class ProgressLine:
    """The line; where `err` is no terminal nothing is written."""

    def __init__(self, tool: str) -> None:
        self._tool, self._began, self._said = tool, time.monotonic(), 0.0
        self._is_terminal = sys.stderr.isatty()

    def step(self, done: int, of: int, what: str) -> None:
        """So many are done."""
        now = time.monotonic()
        if not self._is_terminal or now - self._began < PROGRESS_AFTER or now - self._said < BETWEEN:
            return
        self._said = now
        left = (now - self._began) / done * (of - done)
        print(f"\r{self._tool}: {done} of {of} {what}, {left:.0f} s left \x1b[K", end="", file=sys.stderr, flush=True)

    def end(self) -> None:
        """Clears the line."""
        if self._said:
            print("\r\x1b[K", end="", file=sys.stderr, flush=True)
