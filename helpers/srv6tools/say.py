"""srv6-say: runs `srv6`, and says on `err` what a person needs where it refuses, fails or drops."""

import collections
import os
import re
import subprocess
import sys
from collections.abc import Iterator, Sequence
from dataclasses import dataclass, field

from .command import Fault, Parser, Status, progress, run_tool
from .err_lines import EditLine, NoAnswer, PacketLine, Refusal, err_line_of
from .files import FILE_LIMIT
from .named_lists import named_list
from .program import the_program
from .say_drops import explain_drops, given_input
from .say_items import OF_THIS_KIND, TomlFile, explain_intent, explain_text, near
from .say_others import (
    REASONS,
    STOPPED,
    explain_certificate,
    explain_fault,
    explain_flatness,
    explain_input,
    explain_no_answer,
    explain_node,
    explain_trace,
    explain_verdict,
    is_swapped,
)
from .say_updates import explain_edits, explain_update, net_at_fault, net_without_answer

FORMS = {
    "run": "run NET NODE [CHOICES [SCHEDULE]] < INPUT > CAPTURE",
    "trace": "trace NET NODE [CHOICES] < INPUT > TRACE",
    "replay": "replay NET TRACE",
    "compile": "compile NET INTENT > CERT",
    "check": "check NET INTENT CERT",
    "walk": "walk NET INTENT [CHOICES [SCHEDULE]] < INPUT > CAPTURE",
    "update": "update OLD NEW INTENT [EVENTS] < INPUT > CAPTURE",
    "show": "show < INPUT",
    "gen": "gen N net|intent|sum",
}
WORDS_OF = {
    "run": (2, 4), "trace": (2, 3), "replay": (2, 2), "compile": (2, 2), "check": (3, 3),
    "walk": (2, 4), "update": (3, 4), "show": (0, 0), "gen": (2, 2),
}  # fmt: skip
FILES_OF = {
    "check": 3, "replay": 2, "compile": 2, "walk": 2, "run": 1, "trace": 1, "update": 3,
}  # fmt: skip
NUMBERS = re.compile(r"(0|[1-9][0-9]*)(,(0|[1-9][0-9]*))*")
DESCRIPTION = """\
Runs srv6 with the words, the same output and the same status, and says on standard error what its
lines mean: the file, the line and the text of what is refused, the file that is missing, the
forms of the commands, why packets are dropped; of a compiled list the names of its SIDs."""


@dataclass(slots=True)
class Run:
    """A run of the program: its words, and what of it is explained."""

    words: Sequence[str]
    status: int = 0
    last: str = ""  # the last line on `err`
    verdict: str = ""  # what `check`, `replay` and `compile` write
    drops: collections.Counter[tuple[str, str]] = field(default_factory=collections.Counter)
    stopped: int = 0  # packets that used all their stages
    edits: collections.Counter[str] = field(default_factory=collections.Counter)

    @property
    def command(self) -> str:
        """The first word, where it is a command."""
        return self.words[0] if self.words and self.words[0] in FORMS else ""

    def word(self, place: int) -> str:
        """A word behind the command, from 1."""
        return self.words[place] if place < len(self.words) else ""

    @property
    def files(self) -> list[str]:
        """The words that name files, in the order in which they are read."""
        return list(self.words[1 : 1 + FILES_OF.get(self.command, 0)])

    @property
    def reads_input(self) -> bool:
        """Whether the command reads an input."""
        return self.command in ("run", "trace", "walk", "show", "update")


def main(words: Sequence[str]) -> int:
    """Runs the tool."""
    parser = Parser("srv6-say", DESCRIPTION, "The words are those of srv6:\n  " + _forms())
    parser.usage = "srv6-say WORDS.."
    asks = list(words) in (["--help"], ["-h"])
    return run_tool(parser, lambda _: _say(words), words if asks else [])


def _forms() -> str:
    return "\n  ".join(f"srv6 {form}" for form in FORMS.values())


def _say(words: Sequence[str]) -> int:
    run = Run(words)
    _run(run)
    try:
        with progress("srv6-say", "looking for the place"):
            lines = list(_explained(run))
    except (Fault, OSError, *OF_THIS_KIND):
        lines = []
    for line in lines:
        print(line if line.startswith("  ") else f"srv6-say: {line}", file=sys.stderr)
    return run.status


def _run(run: Run) -> None:
    """Runs the program with this tool's input and output, and passes its lines on `err` on as
    they come.
    """
    sys.stdout.flush()
    keeps_out = run.command in ("check", "replay", "compile")
    path = the_program()
    try:
        program = subprocess.Popen(
            [path, *run.words],
            stdout=subprocess.PIPE if keeps_out else None,
            stderr=subprocess.PIPE,
        )
    except (OSError, ValueError) as fault:
        reason = getattr(fault, "strerror", None) or fault
        raise Fault(f"the program {path} can't be run: {reason}", Status.OUTSIDE_FAULT) from None
    with program:
        for line in program.stderr:
            sys.stderr.buffer.write(line)
            _take(run, line.decode("utf-8", "surrogateescape").rstrip("\n"))
        sys.stderr.buffer.flush()
        if keeps_out:
            verdict = program.stdout.read()
            sys.stdout.buffer.write(verdict)
            sys.stdout.buffer.flush()
            run.verdict = verdict.decode("utf-8", "replace").rstrip("\n")
    run.status = program.returncode if program.returncode >= 0 else 128 - program.returncode


def _take(run: Run, line: str) -> None:
    run.last = line
    match err_line_of(line):
        case PacketLine(reason=str(reason), place=place):
            run.drops[reason, place or ""] += 1
        case PacketLine(outcome="stopped"):
            run.stopped += 1
        case EditLine(kind=kind):
            run.edits[kind] += 1


def _explained(run: Run) -> Iterator[str]:
    """What is to be said of a run."""
    beside = _beside_drops(run)
    for (reason, place), count in sorted(run.drops.items()):
        at = f" at {place}" if place else ""
        if reason in REASONS:
            yield f"{reason}{at} ({_packets(count)}): {REASONS[reason]}"
            yield from beside.get((reason, place), ())
    if run.stopped:
        yield f"stopped ({_packets(run.stopped)}): {STOPPED}"
    yield from explain_edits(run.edits)
    said = err_line_of(run.last)
    match run.status:
        case Status.DONE if run.command == "compile":
            yield from named_list(run.word(1), run.word(2), run.verdict)
        case Status.REFUSED if isinstance(said, Refusal):
            yield from _refused(run, said)
        case Status.USAGE:
            yield from _usage(run)
        case Status.NO_ANSWER if isinstance(said, NoAnswer) and run.command != "gen":
            net, intent = _net_and_intent(run)
            yield from explain_no_answer(said.why, said.number, net, intent)
        case Status.SAYS_NO:
            yield from explain_verdict(run.word(1), run.files[-1], run.verdict, run.command)
        case Status.OUTSIDE_FAULT:
            yield from explain_fault(run.files, run.reads_input)
            yield from _order_of_files(run)
        case Status.NO_MEMORY:
            yield "there wasn't enough memory"
        case status if status > 128:
            yield f"srv6 was ended by signal {status - 128}"


def _beside_drops(run: Run) -> dict[tuple[str, str], list[str]]:
    """What is said of the destinations of dropped packets, by the reason and the node; nothing
    where the input can't be read once more.
    """
    if run.command not in ("run", "walk") or not any(place for _, place in run.drops):
        return {}
    try:
        given = given_input()
        return {} if given is None else explain_drops(run.command, run.words[1:], given)
    except (Fault, OSError, *OF_THIS_KIND):
        return {}


def _packets(count: int) -> str:
    return "1 packet" if count == 1 else f"{count} packets"


def _net_and_intent(run: Run) -> tuple[str, str]:
    """The description that a line is of, none where it is of an update's two, and the second file
    of the command.
    """
    if run.command != "update":
        return run.word(1), run.word(2)
    old, new, intent = run.words[1:4]
    if run.status == Status.NO_ANSWER:
        return net_without_answer(old, new, intent), intent
    return net_at_fault(old, new, intent, run.last), intent


def _refused(run: Run, said: Refusal) -> Iterator[str]:
    number, name, fields = said.number, said.name, said.fields
    net, second = _net_and_intent(run)
    has_intent = run.command in ("compile", "check", "walk", "update")
    if has_intent and number != 2 and net and is_swapped(net, second):
        yield f"{net} looks like an intent and {second} like a description:"
        yield "the description comes first"
    elif number == 2 and fields[:1] == (str(FILE_LIMIT),):
        big = [file for file in run.files if os.path.getsize(file) > FILE_LIMIT] or run.files
        yield f"{big[0]} has more than {FILE_LIMIT} bytes, which is the most that a file may have"
    elif number == 2 or 11 <= number <= 17 or 49 <= number <= 54:
        yield from explain_input(number, fields)
    elif number in (47, 48) or number == 32 and not net:
        yield from explain_update(TomlFile(run.word(1)), TomlFile(run.word(2)), name, fields)
    elif 21 <= number <= 32:
        yield from explain_text(TomlFile(net), name, fields)
    elif number == 33:
        yield from explain_text(TomlFile(second), fields[0], fields[1:])
    elif 34 <= number <= 38 or number == 46:
        yield from explain_intent(TomlFile(net), TomlFile(second), name, fields)
    elif number == 39:
        yield from explain_node(TomlFile(net), second)
    elif number == 40:
        yield from explain_trace(second, int(fields[0]), TomlFile(net))
    elif number == 45:
        yield from explain_certificate(second, run.word(3), int(fields[0]))
    elif 41 <= number <= 44 and net:
        yield from explain_flatness(TomlFile(net), name, fields)


def _usage(run: Run) -> Iterator[str]:
    """The form of the command, or those of all."""
    if not run.command:
        if run.words and run.words[0] not in ("--help", "-h", "help", "--version"):
            yield f"{run.words[0]!r} is no command; {near(run.words[0], FORMS, 'commands')}"
        yield "the commands are:"
        for form in FORMS.values():
            yield f"  srv6 {form}"
        yield "`man srv6` and `man srv6-tools` say more"
        return
    yield from _wrong_words(run)
    yield f"the form is: srv6 {FORMS[run.command]}"


def _wrong_words(run: Run) -> Iterator[str]:
    count, (least, most) = len(run.words) - 1, WORDS_OF[run.command]
    if not least <= count <= most:
        wanted = str(least) if least == most else f"{least} to {most}"
        yield f"{run.command} takes {wanted} words behind it, and there are {count}"
    elif run.command == "gen":
        yield "N is a number from 2 to 47, and behind it stands net, intent or sum"
    else:
        places = ((3, "CHOICES", 4096), (4, "SCHEDULE", 65536))
        for place, name, limit in ((4, "EVENTS", 65536),) if run.command == "update" else places:
            word = run.word(place)
            numbers = word.split(",")
            if word and (not NUMBERS.fullmatch(word) or len(numbers) > limit):
                form = f"1 to {limit} numbers joined by commas, without blanks"
                yield f"{name} is {form}: not {word[:40]!r}"
            elif word and any(int(number) >= 2**32 for number in numbers):
                yield f"{name} has a number above 4294967295"
            elif word and name == "SCHEDULE" and "0" in numbers:
                yield "SCHEDULE has numbers of packets, which count from 1"


def _order_of_files(run: Run) -> Iterator[str]:
    """Where a file isn't there, the form of the command."""
    if any(not os.path.exists(file) for file in run.files):
        yield f"the form is: srv6 {FORMS[run.command]}"
