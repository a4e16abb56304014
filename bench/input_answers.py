"""What the program may answer to an input, by docs/FORMATS.md: the shapes of its lines, and what must be as it is for the answer to be true."""
import os
import re
import struct

N, PREFIX, NAME = r"(?:0|[1-9][0-9]*)", r"[0-9a-f:]+/[0-9]+", r"[A-Za-z0-9_.-]{1,32}"
TABLE = r"(?:net|block|node|link|route|policy|sid) " + N
STEP = r"(?:intent|step) " + N
SHAPES = ((22, "MissingKey", " [a-z_]+"), (23, "WrongKind", ""), (24, "UnknownKey", ""), (25, "BadName", ""), (26, "UnknownName", ""),
          (27, "DoubleName", ""), (28, "BadAddress", ""), (29, "BadFlavour", ""), (30, "BadStructure", ""), (31, "DoublePrefix", ""), (32, "Limit", ""))
BIG_FILE = "2 TooBig 4194304"
REFUSALS = {
    "descriptions": [BIG_FILE, "21 NotToml"] + [f"{number} {name} {TABLE}{more}" for number, name, more in SHAPES] + ["39 BadNode"],
    "intents": [BIG_FILE, "33 Text NotToml"] + [f"33 Text {name} {STEP}{more}" for number, name, more in SHAPES if number in (22, 23, 24, 25, 28, 29, 32)]
    + [f"34 UnknownName {N}", f"35 Broken {N}", f"36 NoFunction {N}", "37 NotFunctionLast", f"38 DoubleLink {N}", "46 LooseLimit 128"],
    "captures": ["2 TooBig 67108864", "11 BadMagic", "13 BadVersion", f"14 BadLink {N}", "15 CutHead", f"16 CutFrame {N}", "17 FrameLimit"]
    + [f"{number} Ng{name} {N}" for number, name in enumerate(("Block", "Magic", "Version", "Interface", "Cut", "OldBlock"), 49)],
    "certificates": [BIG_FILE, f"45 BadCert {N}"],
    "traces": [BIG_FILE, f"40 BadTrace {N}"],
    "events": [],
}
NOT_FLAT = [f"41 Nested {PREFIX} {PREFIX}", f"42 ZeroCsid {PREFIX}", f"43 MixedBlock {PREFIX} {PREFIX}", f"44 Clash {PREFIX} {NAME} {NAME}"]
JOINED = REFUSALS["intents"][-6:]
ENTRY = rf"(?:route|sid|node) {N}"
REFUSALS["changes"] = REFUSALS["descriptions"] + NOT_FLAT + JOINED + [f"47 Conflict {ENTRY} {ENTRY}", f"48 Differs (?:block|node|link|policy) {N}"]
# A refusal of a capture that comes after what stands before it, where the others come first; the first block of a pcapng file has none.
LATE = re.compile(r"refused (?:1[67]\b|(?:49|5[0-4]) Ng[A-Za-z]+ (?!1\n))")
# What each kind must have met; a run of few inputs may miss some.
MET = {
    "descriptions": [2, *range(21, 33), 39, 41, 42, 43, 44],
    "intents": [2, 33, 34, 35, 36, 37, 38, 46, "TooLong", "HopLimit", "NoList"],
    "changes": [2, *range(21, 33), 41, 42, 43, 44, 47, 48, "NoList", "update:"], "events": ["usage", "update:"],
    "captures": [2, 11, 13, 14, 15, 16, 17, 49, 50, 51, 52, 53, 54],
    "certificates": [2, 45, "edge", "unlisted", "path", "tight"], "traces": [2, 40],
}


def full(pattern):
    return re.compile(rf"(?:{pattern})\Z")


def refusal_of(kind, command):
    joined = NOT_FLAT + JOINED if kind == "descriptions" and command == "compile" else []
    return full("refused (?:" + "|".join(REFUSALS[kind] + joined) + ")\n")


PACKET = (rf"packet {N}: (?:not read, (?:ShortFrame|NotIp|WrongVersion)|left {NAME}|delivered at {NAME}|dropped [A-Z][A-Za-z]+ at {NAME}"
          rf"|stopped after 10000 stages)\n")
PACKETS = full(rf"(?:{PACKET})*")
EDIT = rf"edit (?:(?:add|remove) (?:route|sid) {N}|switch|busy {N})\n"
MOVES = full(rf"(?:{PACKET}|{EDIT})*")
USAGE = b"usage: srv6 compile|check|walk|run|trace|replay|show|gen|update\n"
CERTIFICATE = rf"srv6 certificate 1\n(?:potential {N} [^\n]+\n)*(?:(?:path (?:new|stay) {PREFIX}\n)+|none\n)end\n"
REPORT = full(rf"(?:# none\n|(?:# container [0-9a-f:]+\n)+# containers {N}\n# header {N}\n# need {N}\n)" + CERTIFICATE)
NO_ANSWER = full(rf"no answer (?:NoList|TooLong {N}|HopLimit {N})\n")
LEAST = full(rf"least {N} {N}\n|none\n")
BAD_LINE = full(rf"no {N} (?:edge|unlisted {N} (?:-|{PREFIX}(?: ?@ ?{NAME})?) {N}|path|tight)\n")
ALL_RIGHT = full(rf"ok {N} {N}\n")
WRONG = full(rf"no {N} [^\n]+\n")
STATUSES = {"run": (0, 1), "walk": (0, 1, 3), "compile": (0, 1, 3), "check": (0, 1, 4), "trace": (0, 1), "replay": (0, 1, 4), "show": (0, 1),
            "update": (0, 1, 3)}
HEAD = struct.pack("<IHHiIII", 0xA1B2C3D4, 2, 4, 0, 0, 262_144, 101)


def is_capture(out):
    """A head and whole frames."""
    at = 24
    while at < len(out):
        if len(out) < at + 16:
            return False
        captured, length = struct.unpack_from("<II", out, at + 8)
        if captured != length:
            return False
        at += 16 + length
    return out[:24] == HEAD and at == len(out)


def is_whole(command, out, is_end):
    """What `out` holds once the input was read to its end, or to a frame that is refused."""
    if command in ("run", "walk", "update"):
        return is_capture(out)
    if command == "trace":
        return out.startswith(b"srv6 trace 1\n") and out.endswith(b"end\n" if is_end else b"\n") and (is_end or not out.endswith(b"\nend\n"))
    return out == b"" or out.startswith(b"packet 1\n") and out.endswith(b"\n")


def judged(kind, command, status, out, err):
    """The answer in a few words, and what isn't right about it, if something is."""
    if os.WIFSIGNALED(status):
        return f"signal {os.WTERMSIG(status)}", "it ended by a signal"
    status = os.WEXITSTATUS(status)
    if status == 2 and kind == "events":
        return "usage", None if (out, err) == (b"", USAGE) else "the line of the usage"
    if status not in STATUSES[command]:
        return f"status {status}", "the status"
    err, lines = err.decode("latin-1"), ""
    if command in ("run", "walk", "update"):
        begin = err.rfind("\n", 0, -1) + 1 if status in (1, 3) else len(err)
        lines, err = err[:begin], err[begin:]
    if not (MOVES if command == "update" else PACKETS).match(lines):
        return f"status {status}", "the packets' lines"
    text = out.decode("latin-1")
    if status == 1:
        answer = " ".join(err.split()[:4 if err.startswith("refused 33 ") else 3])
        if not refusal_of(kind, command).match(err):
            return answer, "the refusal's line"
        if not LATE.match(err):
            return answer, None if out == b"" and lines == "" else "something is written before the refusal"
        return answer, None if is_whole(command, out, False) else "`out` isn't whole before the refusal"
    if status == 3:
        answer = " ".join(err.split()[:3])
        fine = NO_ANSWER.match(err) and (REPORT.match(text) if command == "compile" else out == b"" and lines == "")
        return answer, None if fine else "the report or the line"
    if err:
        return f"status {status}", "a line on `err`"
    if status == 4:
        shape = BAD_LINE if command == "check" else WRONG
        return f"{command}: no" + (f" {text.split()[2]}" if command == "check" else ""), None if shape.match(text) else "the verdict's line"
    shape = {"compile": REPORT, "check": LEAST, "replay": ALL_RIGHT}.get(command)
    fine = shape.match(text) if shape else is_whole(command, out, True)
    return f"{command}: " + (text.split()[0] if command in ("check", "replay") else "done"), None if fine else "`out`"


def untrue(kind, command, text, status, out, sample):
    """What an answer says that can't be so: the verdict and the sums of a certificate or a trace are told by other texts."""
    said = out.decode("latin-1").split()
    if command == "check" and status == 0 and said != (sample or said):
        return f"the least is {' '.join(sample)}"
    if command == "replay" and status == 0:
        lines = text.count(b"\n") - 2
        if said != ["ok", str(text.count(b"\npacket ")), str(lines)]:
            return "the sums of a trace"
    return None


def moves_of(err):
    """The numbers of the packets that have lines, sorted, and the edits that were done, in order."""
    lines = err.decode("latin-1").splitlines()
    return sorted(line.split(":")[0] for line in lines if line.startswith("packet ")), [line for line in lines if re.match("edit (add|remove|switch)", line)]


def is_events(text):
    """Whether a word is 1 to 65,536 numbers of 32 bits joined by commas."""
    numbers = text.split(b",")
    return len(numbers) <= 65_536 and all(re.fullmatch(rb"0|[1-9][0-9]{0,9}", number) and int(number) < 2**32 for number in numbers)


def untrue_of_update(kind, text, status, err, sample):
    """What `update` says of packets and edits that can't be so."""
    if kind == "events" and (status == 0) != is_events(text):
        return "events that are none, or a usage line though they are some"
    if status != 0:
        return None
    packets, edits = moves_of(err)
    if len(set(packets)) < len(packets) or len(set(edits)) < len(edits) or edits.count("edit switch") != 1:
        return "a packet or an edit comes twice, or no switch"
    order = [("add", "switch", "remove").index(edit.split()[1]) for edit in edits]
    if order != sorted(order):
        return "the order of the edits"
    if kind == "events" and (packets, edits) != moves_of(sample):
        return "other packets or edits than with other events"
    return None


def least_of(report):
    """The verdict that a report and its certificate must have."""
    containers, need = (re.search(rb"(?m)^# " + word + rb" ([0-9]+)$", report) for word in (b"containers", b"need"))
    return b"least %s %s\n" % (containers[1], need[1]) if containers else b"none\n"


def never_met(kind, answers):
    """The refusals of a kind that no run met."""
    words = {word for answer in answers for word in answer.split()}
    return [str(wanted) for wanted in MET.get(kind, ()) if str(wanted) not in words]
