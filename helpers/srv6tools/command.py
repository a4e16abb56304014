"""What each tool has as a command: its words, its exit status, and one line for what went wrong."""

import argparse
import contextlib
import enum
import errno
import gc
import os
import sys
import threading
from collections.abc import Callable, Iterator, Sequence
from pathlib import Path


PROGRESS_AFTER = 2.0  # seconds


class Status(enum.IntEnum):
    """The exit statuses, which are those of `srv6`."""

    DONE = 0
    REFUSED = 1
    USAGE = 2
    NO_ANSWER = 3
    SAYS_NO = 4
    OUTSIDE_FAULT = 5
    NO_MEMORY = 6  # also where a tool or a package is missing


class Fault(Exception):
    """What ends a tool: one line, which names the file and the entry, and the exit status."""

    def __init__(self, line: str, status: Status = Status.REFUSED):
        super().__init__(line)
        self.status = status


class Parser(argparse.ArgumentParser):
    """Reads a tool's words; the text of `--help` says that the tool isn't proved."""

    def __init__(self, tool: str, description: str, more: str = "", any_order: bool = False):
        super().__init__(
            prog=tool,
            description=description,
            epilog=f"{more}\n\nNOT PROVED, unlike the program srv6.".lstrip(),
            formatter_class=argparse.RawDescriptionHelpFormatter,
            allow_abbrev=False,
        )
        self._any_order = any_order

    def parse_args(self, args=None, namespace=None) -> argparse.Namespace:
        """Reads the words; where they may stand in any order, files behind options too."""
        if self._any_order:
            return self.parse_intermixed_args(args, namespace)
        return super().parse_args(args, namespace)

    def error(self, message: str) -> None:
        usage = " ".join(self.format_usage().removeprefix("usage:").split())
        raise Fault(f"{message}; usage: {usage}", Status.USAGE)


def positive(text: str) -> int:
    """A number from 1 on."""
    if not text.isascii() or not text.isdecimal() or int(text) < 1:
        raise argparse.ArgumentTypeError(f"{text!r} is no number from 1 on")
    return int(text)


def tool_name(tool: str) -> str:
    """A tool as it is called: by its place in the repository, or as `helpers/install` names it."""
    folder = Path(__file__).resolve().parents[1]
    if (folder / "tests").is_dir():
        return f"{folder.name}/{tool}"
    return f"srv6-{tool.removeprefix('srv6-')}"


def judge_all(found: Sequence[object], what: str) -> None:
    """A fault where some of what was found for each of several things are faults."""
    faults = [one for one in found if isinstance(one, Fault)]
    if len(faults) == 1:
        raise faults[0]
    if faults:
        raise Fault(f"{len(faults)} of {len(found)} {what}", faults[0].status)


def missing_package(name: str, debian: str) -> Fault:
    """The fault of a Python package that isn't there."""
    return Fault(
        f"the Python package {name} is missing; it is the Debian package {debian}", Status.NO_MEMORY
    )


def run_tool(
    parser: Parser, work: Callable[[argparse.Namespace], int | None], words: Sequence[str]
) -> int:
    """Reads the words, does the work, and gives the exit status; a fault is one line on `err`."""
    gc.disable()  # what a tool makes it keeps to its end, so that looking for garbage is in vain
    for stream in (sys.stdout, sys.stderr):
        stream.reconfigure(encoding="utf-8", errors="surrogateescape")
    try:
        status = work(parser.parse_args(words)) or Status.DONE
        sys.stdout.flush()
        return status
    except Fault as fault:
        return _ended(parser.prog, str(fault), fault.status)
    except BrokenPipeError:
        return _ended(parser.prog, "", Status.OUTSIDE_FAULT)
    except OSError as fault:
        return _ended(parser.prog, _reason(fault), Status.OUTSIDE_FAULT)
    except (MemoryError, RecursionError):
        return _ended(parser.prog, "want of memory", Status.NO_MEMORY)
    except KeyboardInterrupt:
        return _ended(parser.prog, "interrupted", Status.OUTSIDE_FAULT)
    except SystemExit as end:  # of --help
        return _flushed(parser.prog, end.code or Status.DONE)


def _flushed(tool: str, status: int) -> int:
    try:
        sys.stdout.flush()
        return status
    except OSError as fault:
        text = "" if fault.errno == errno.EPIPE else _reason(fault)
        return _ended(tool, text, Status.OUTSIDE_FAULT)


def _reason(fault: OSError) -> str:
    reason = fault.strerror or str(fault)
    return f"{fault.filename}: {reason}" if fault.filename else reason


def _ended(tool: str, line: str, status: Status) -> Status:
    """Writes the line, and closes the streams so that Python writes nothing more of them at its
    end.
    """
    with contextlib.suppress(OSError, ValueError):
        sys.stdout.flush()
    if line:
        with contextlib.suppress(OSError, ValueError):
            print(f"{tool}: {' '.join(line.splitlines())}", file=sys.stderr, flush=True)
    with contextlib.suppress(OSError, ValueError):
        nothing = os.open(os.devnull, os.O_WRONLY)
        os.dup2(nothing, sys.stdout.fileno())
    return status


@contextlib.contextmanager
def progress(tool: str, what: str) -> Iterator[None]:
    """Says what is being done on `err`, where it takes longer than two seconds."""

    def say() -> None:
        print(f"{tool}: {what} ..", file=sys.stderr, flush=True)

    timer = threading.Timer(PROGRESS_AFTER, say)
    timer.daemon = True
    timer.start()
    try:
        yield
    finally:
        timer.cancel()
