"""to-json: what `srv6` writes as text, as JSON; docs/FORMATS.md has the schema."""

from __future__ import annotations

import argparse
import json
import re
import sys
from collections.abc import Callable, Iterator, Sequence
from typing import Any

from .command import Fault, Parser, Status, progress, run_tool
from .err_lines import EditLine, NoAnswer, PacketLine, Refusal, err_line_of
from .files import INPUT_LIMIT, STDIN, decoded, read_bytes, read_input
from .report import HEADS, NO_LIST, Certificate, Potential, Report, certificate_of, report_of
from .shown import Header, Shown, shown_in
from .trace import HEAD as TRACE_HEAD
from .trace import Stage, Walk, trace_of

TOOL = "to-json"
TEXT_LIMIT = 4 * INPUT_LIMIT
"""The bytes of a text; what `show` writes is longer than its input."""

Json = dict[str, Any]

DESCRIPTION = """\
Writes as JSON what srv6 wrote as text: the report of compile with its certificate, a certificate,
the lines on err, a trace, the lines of show, the verdict of check or of replay, or a summary of
gen. Without TEXT, or with -, it is standard input. docs/FORMATS.md has the schema ('As JSON')."""

MORE = """\
  srv6 compile NET INTENT | to-json
  srv6 run NET NODE < INPUT 2>&1 > OUT | to-json --kind err"""

SUMMARY = (
    "nodes", "links", "routes", "sids", "containers", "header", "need", "packets", "frames", "left",
)  # fmt: skip
_OF_CHECK = re.compile(r"no ([0-9]{1,10}) (edge|path|tight|unlisted)(?: (.*))?")
_OF_REPLAY = re.compile(r"no ([0-9]{1,10}) (.*)")
_LEAST = re.compile(r"least ([0-9]{1,20}) (?:([0-9]{1,20}) )?([0-9]{1,20})")
_OK = re.compile(r"ok ([0-9]{1,20}) ([0-9]{1,20})")
_PLACE_NAMES = {"left": "link", "delivered": "node", "dropped": "node"}


def of_report(lines: list[str], name: str) -> Json:
    """The report of `compile`, and the certificate behind it where there is one."""
    report = report_of(lines, name)
    behind = any(line in HEADS.values() for line in lines)
    certificate = certificate_json(certificate_of(lines, name)) if behind else None
    return {"kind": "report", "list": list_json(report), "certificate": certificate}


def list_json(report: Report) -> Json | None:
    """The list of a report; none where there is none."""
    if not report.has_list:
        return None
    containers = [str(container) for container in report.containers]
    sids = {} if report.sids is None else {"sids": report.sids}
    return {"containers": containers} | sids | {"header": report.header, "need": report.need}


def of_certificate(lines: list[str], name: str) -> Json:
    """A certificate."""
    return {"kind": "certificate"} | certificate_json(certificate_of(lines, name))


def certificate_json(certificate: Certificate) -> Json:
    """The potentials and the path of a certificate; the path is null where it says `none`."""
    path = [
        {"line": step.line, "prefix": str(step.prefix), "stays": step.stays}
        for step in certificate.path
    ]
    form = certificate.form
    potentials = [potential_json(potential, form) for potential in certificate.potentials]
    return {"potentials": potentials, "path": path or None}


def potential_json(potential: Potential, form: int) -> Json:
    """A line `potential` of a certificate, which has SIDs with form 2 alone."""
    cost = {"containers": potential.containers, "sids": potential.sids, "hops": potential.hops}
    if form == 1:
        del cost["sids"]
    return {
        "line": potential.line,
        "position": potential.position,
        "prefix": None if potential.prefix is None else str(potential.prefix),
        "node": potential.node,
        "room": potential.room,
    } | cost


def of_err(lines: list[str], name: str) -> Json:
    """The lines on `err`."""
    return {"kind": "err", "lines": [err_json(line, at, name) for at, line in enumerate(lines, 1)]}


def err_json(line: str, number: int, name: str) -> Json:
    """A line on `err`."""
    match err_line_of(line):
        case Refusal() as refusal:
            fields = list(refusal.fields)
            keys = {"number": refusal.number, "name": refusal.name, "fields": fields}
            return {"line": "refused"} | keys
        case NoAnswer() as answer:
            return {"line": "no answer", "why": answer.why, "number": answer.number}
        case PacketLine() as packet:
            return packet_json(packet)
        case EditLine() as edit:
            return edit_json(edit)
    if line.startswith("usage: "):
        return {"line": "usage"}
    raise Fault(f"{name}: line {number}: srv6 writes no such line on err: {line[:60]!r}")


def packet_json(packet: PacketLine) -> Json:
    """A line of a packet, with the reason and the link or node that its outcome has."""
    found: Json = {"line": "packet", "packet": packet.number, "outcome": packet.outcome}
    if packet.reason is not None:
        found["reason"] = packet.reason
    if packet.place is not None:
        found[_PLACE_NAMES[packet.outcome]] = packet.place
    return found


def edit_json(edit: EditLine) -> Json:
    """A line of an update, with the entry or the packet that it names."""
    found: Json = {"line": "edit", "edit": edit.kind}
    match edit.kind:
        case "switch":
            return found
        case "busy":
            return found | {"packet": edit.number}
        case _:
            return found | {"table": edit.table, "item": edit.number}


def of_trace(lines: list[str], name: str) -> Json:
    """A trace."""
    trace = trace_of(lines, name)
    walks = [walk_json(walk) for walk in trace.walks]
    return {"kind": "trace", "whole": trace.is_whole, "packets": walks}


def walk_json(walk: Walk) -> Json:
    """A packet of a trace with its stages."""
    return {
        "packet": walk.number,
        "family": walk.family,
        "node": walk.node,
        "bytes": hexed(walk.packet),
        "stages": [stage_json(stage) for stage in walk.stages],
    }


def stage_json(stage: Stage) -> Json:
    """A stage, with the keys that its kind has."""
    found: Json = {"stage": stage.kind}
    match stage.kind:
        case "again":
            return found | {"sid": stage.sid, "table": stage.table, "bytes": hexed(stage.packet)}
        case "hand":
            keys = {"sid": stage.sid, "table": stage.table, "family": stage.family}
            return found | keys | {"bytes": hexed(stage.packet)}
        case "send":
            return found | {"link": stage.link, "bytes": hexed(stage.packet)}
        case "drop":
            error = None if stage.packet is None else hexed(stage.packet)
            return found | {"reason": stage.reason, "error": error}
        case _:
            return found


def hexed(content: bytes | None) -> str:
    """Bytes as hexadecimal digits, the empty text for none."""
    return (content or b"").hex()


def of_show(lines: list[str], name: str) -> Json:
    """The lines of `show`."""
    return {"kind": "show", "packets": [shown_json(shown) for shown in shown_in(lines, name)]}


def shown_json(shown: Shown) -> Json:
    """A packet with its headers."""
    headers = [header_json(header) for header in shown.headers]
    return {"packet": shown.number, "not_read": shown.not_read, "headers": headers}


def header_json(header: Header) -> Json:
    """A header with the values of its line, and of a segment routing header what stands in it."""
    found: Json = {"header": header.kind} | header.values
    if header.kind == "srh":
        found |= {"entries": header.entries, "tlvs": header.tlvs}
    return found


def of_verdict(lines: list[str], name: str) -> Json:
    """The verdict of `check` or of `replay`."""
    if len(lines) != 1:
        raise Fault(f"{name}: a verdict is one line, and there are {len(lines)}")
    verdict: Json = {"kind": "verdict"}
    if lines[0] == "none":
        return verdict | {"of": "check", "answer": "none"}
    if match := _LEAST.fullmatch(lines[0]):
        keys: Json = {"of": "check", "answer": "least", "containers": int(match[1])}
        sids = {"sids": int(match[2])} if match[2] else {}
        return verdict | keys | sids | {"need": int(match[3])}
    if match := _OK.fullmatch(lines[0]):
        numbers = int(match[1]), int(match[2])
        return verdict | {"of": "replay", "answer": "ok"} | dict(zip(("packets", "lines"), numbers))
    if match := _OF_CHECK.fullmatch(lines[0]):
        keys = {"of": "check", "answer": "no", "line": int(match[1]), "why": match[2]}
        return verdict | keys | {"state": match[3]}
    if match := _OF_REPLAY.fullmatch(lines[0]):
        keys = {"of": "replay", "answer": "no", "line": int(match[1])}
        return verdict | keys | {"expected": match[2]}
    raise Fault(f"{name}: line 1: no verdict of srv6 check or replay: {lines[0][:60]!r}")


def of_summary(lines: list[str], name: str) -> Json:
    """The summary of `gen N sum`."""
    found: Json = {"kind": "summary"}
    for number, (line, word) in enumerate(zip(lines, SUMMARY), 1):
        match = re.fullmatch(f"{word} ([0-9]{{1,20}})", line)
        if not match:
            raise Fault(f"{name}: line {number}: a summary has {word!r} and a number there")
        found[word] = int(match[1])
    if len(lines) != len(SUMMARY):
        raise Fault(f"{name}: a summary has {len(SUMMARY)} lines, and there are {len(lines)}")
    return found


KINDS: dict[str, Callable[[list[str], str], Json]] = {
    "report": of_report,
    "certificate": of_certificate,
    "err": of_err,
    "trace": of_trace,
    "show": of_show,
    "verdict": of_verdict,
    "summary": of_summary,
}
_FIRST_LINES = (
    ("trace", re.compile(re.escape(TRACE_HEAD))),
    ("certificate", re.compile("|".join(map(re.escape, HEADS.values())))),
    ("report", re.compile(f"# container .*|{NO_LIST}")),
    ("certificate", re.compile("#.*")),
    ("show", re.compile("packet [0-9]+")),
    ("err", re.compile("packet [0-9]+: .*|edit .*|refused [0-9].*|no answer .*|usage: .*")),
    ("verdict", re.compile("least .*|ok .*|none|no [0-9].*")),
    ("summary", re.compile("nodes [0-9]+")),
)


def kind_of(lines: list[str], name: str) -> str:
    """Which kind of text it is, by its first line."""
    if not lines:
        raise Fault(f"{name}: no line, which may be of any kind; --kind says which")
    for kind, shape in _FIRST_LINES:
        if shape.fullmatch(lines[0]):
            return kind
    raise Fault(f"{name}: line 1: srv6 writes no text that begins so: {lines[0][:60]!r}")


def pieces_of(value: Json) -> Iterator[str]:
    """An object as JSON text: the members of its own lists stand on a line each."""
    parted = "{"
    for key, part in value.items():
        yield f"{parted}{json.dumps(key)}: "
        parted = ", "
        if isinstance(part, list) and part:
            yield "[\n" + ",\n".join(map(json.dumps, part)) + "\n]"
        else:
            yield json.dumps(part)
    yield "}\n"


def lines_of(name: str) -> list[str]:
    """The lines of a file, or of standard input for `-`."""
    called = STDIN if name == "-" else name
    content = read_input(TEXT_LIMIT) if name == "-" else read_bytes(name, TEXT_LIMIT)
    lines = decoded(content, called).split("\n")
    return lines[:-1] if lines[-1] == "" else lines


def work(words: argparse.Namespace) -> int:
    """Reads the text and writes it as JSON."""
    called = STDIN if words.text == "-" else words.text
    lines = lines_of(words.text)
    with progress(TOOL, f"reads {called}"):
        value = KINDS[words.kind or kind_of(lines, called)](lines, called)
        pieces = list(pieces_of(value))
    sys.stdout.writelines(pieces)
    return Status.DONE


def main(words: Sequence[str] | None = None) -> int:
    """The command."""
    parser = Parser(TOOL, DESCRIPTION, MORE)
    parser.add_argument("text", metavar="TEXT", nargs="?", default="-", help="what srv6 wrote")
    parser.add_argument(
        "--kind", choices=list(KINDS), help="the kind of text; without it its first line says"
    )
    return run_tool(parser, work, sys.argv[1:] if words is None else words)
