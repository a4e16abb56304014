"""Each word that the program writes or takes is explained where its users look: in docs/FORMATS.md,
in srv6(1), and by srv6-say. The words are read in the sources of the crates.
"""

import re
import unittest
from pathlib import Path

from srv6tools.description import BEHAVIOURS
from srv6tools.say import FORMS
from srv6tools.say_others import NG_BLOCKS, REASONS
from srv6tools.say_updates import EDITS
from srv6tools.schema import KEYS
from support import HELPERS
from test_say import FLATNESS, INPUTS, INTENTS, NETS

TOP = HELPERS.parent
DOCS = TOP / "docs"
PAIR = r"{}::(\w+)(?: \{{ \.\. \}}|\(_\))? => {}"  # a variant of an enum, and what it comes to
NEVER = {12: "PcapNg"}  # a pcapng file is read; the number stands for what it was before
# Refusals whose explanation is tried in functions of their own of test_say, and 46 in test_loose.
IN_FUNCTIONS = {2, 39, 40, 45, 46, 47, 48}


def source(path: str) -> str:
    """A source of the crates."""
    return (TOP / "crates" / path).read_text()


def pairs(enum: str, value: str, text: str) -> dict[str, str]:
    """What each variant of an enum comes to in a `match`."""
    return dict(re.findall(PAIR.format(enum, value), text))


def refusals() -> dict[int, str]:
    """The numbers of refusals, with their names."""
    found = re.findall(r'"refused (\d+) (\w+)', source("command_output/src/refusal.rt"))
    named = {int(number): name for number, name in found}
    kinds, steps = source("text_faults/src/fault_kind.rt"), source("intent_reader/src/fault.rt")
    names = pairs("FaultKind", r'"(\w+)"', kinds)
    for variant, number in pairs("FaultKind", r"(\d+)", kinds).items():
        named[int(number)] = names[variant]
    for enum in ("StepFault", "IntentFault"):
        named |= {int(number): name for name, number in pairs(enum, r"(\d+)", steps).items()}
    return {number: name for number, name in named.items() if number not in NEVER}


def reasons() -> set[str]:
    """The reasons of drops."""
    return set(re.findall(r"reasons\.(\w+) = codes", source("srv6_rules/specs/Reasons.antt")))


def causes() -> set[str]:
    """The causes by which a packet isn't read."""
    return set(pairs("Unread", r'"(\w+)"', source("command_output/src/unread.rt")))


def commands() -> list[str]:
    """The commands."""
    line = re.search(r"usage: srv6 ([a-z|]+)", source("srv6_cli/src/commands.rt"))
    return line[1].split("|") if line else []


def manual(page: str) -> str:
    """A manual page as a reader sees it, nearly."""
    text = (DOCS / page).read_text().replace("\\-", "-")
    text = re.sub(r"\\f[BIPR]", "", text)
    return re.sub(r"^\.[A-Z]+ ?", "", text, flags=re.MULTILINE).replace('"', "")


def diagnostics() -> str:
    """The section of srv6(1) on what stands on `err`."""
    return manual("srv6.1").split("\nDIAGNOSTICS\n")[1].split("\nEXAMPLES\n")[0]


class Words(unittest.TestCase):
    def has(self, place: str, text: str, *words: str) -> None:
        """A text has each of some words, whole."""
        whole = (rf"(?<!\w){re.escape(word)}(?!\w)" for word in words)
        self.assertEqual([one for one in whole if not re.search(one, text)], [], place)

    def test_there_are_words(self):
        self.assertEqual(len(refusals()), 41)
        self.assertEqual((len(reasons()), len(causes()), len(commands())), (19, 3, 9))

    def test_refusals(self):
        rows = re.findall(r"^\| (\d+) \| (\w+) \|", (DOCS / "FORMATS.md").read_text(), re.MULTILINE)
        self.assertEqual({int(number): name for number, name in rows}, refusals())
        entries = re.findall(r"^(\d+) ([A-Z]\w+)", diagnostics(), re.MULTILINE)
        self.assertEqual({int(number): name for number, name in entries}, refusals())
        given = re.findall(r'"refused (\d+) ', (TOP / "bench" / "refusals").read_text())
        self.assertEqual(set(map(int, given)), set(refusals()), "bench/refusals")
        lines = (line for line, _, _ in (*NETS, *INTENTS, *FLATNESS, *INPUTS))
        tried = {int(line.split()[0]) for line in lines} | IN_FUNCTIONS | set(NG_BLOCKS)
        self.assertEqual(set(refusals()) - tried, set(), "helpers/tests/test_say.py")

    def test_reasons_and_causes(self):
        self.assertEqual(set(REASONS), reasons() | causes(), "srv6-say")
        formats, behaviour = ((DOCS / page).read_text() for page in ("FORMATS.md", "BEHAVIOUR.md"))
        table = formats.split("### Reasons of drops")[1].split("\n## ")[0]
        self.has("docs/FORMATS.md", table, *(f"`{word}`" for word in reasons()))
        self.has("docs/BEHAVIOUR.md", behaviour, *(f"`{word}`" for word in reasons() | causes()))
        self.has("docs/FORMATS.md", formats, *causes())
        entries = set(re.findall(r"^([A-Z]\w+)$", diagnostics(), re.MULTILINE))
        self.assertEqual((reasons() | causes()) - entries, set(), "docs/srv6.1")

    def test_statuses(self):
        found = re.findall(r"^    (\w+) = (\d),", source("command_output/src/status.rt"), re.M)
        formats, page = (DOCS / "FORMATS.md").read_text(), manual("srv6.1")
        section = page.split("\nEXIT STATUS\n")[1].split("\nDIAGNOSTICS\n")[0]
        self.assertEqual(len(found), 7)
        self.has("docs/FORMATS.md", formats, *(f"| {name} | {number} |" for name, number in found))
        entries = re.findall(r"^(\d)$", section, re.MULTILINE)
        self.assertEqual(entries, [number for _, number in found], "docs/srv6.1")

    def test_verdicts_answers_and_edits(self):
        answers = set(re.findall(r"no answer (\w+)", source("compile_commands/src/compile_command.rt")))
        edits = set(re.findall(r'"edit (\w+)', source("update_driver/src/edit_lines.rt")))
        self.assertEqual((len(answers), edits), (3, set(EDITS)), "srv6-say")
        judged = set(re.findall(r'"no \{number\} (\w+)', source("compile_commands/src/check_command.rt")))
        judged |= {"ended", "stages"}
        self.assertEqual(len(judged), 6)
        self.has("docs/FORMATS.md", (DOCS / "FORMATS.md").read_text(), *answers, *edits, *judged)
        self.has("docs/srv6.1", manual("srv6.1"), *answers, *edits, *judged)

    def test_keys_and_behaviours(self):
        keys = set(re.findall(r'Key::\w+ => "(\w+)"', source("text_faults/src/texts.rt")))
        known = {key.name for table in KEYS.values() for key in table} | set(KEYS) - {"intent"}
        self.assertEqual(known, keys, "helpers/srv6tools/schema.py")
        behaviours = re.findall(r'"(End[\w.]*)" =>', source("net_syntax/src/sid_table.rt"))
        self.assertEqual(set(behaviours), set(BEHAVIOURS))
        self.has("docs/FORMATS.md", (DOCS / "FORMATS.md").read_text(), *keys, *behaviours)
        self.has("docs/srv6.5", manual("srv6.5"), *keys, *behaviours)

    def test_commands(self):
        self.assertEqual(set(FORMS), set(commands()), "srv6-say")
        page, readme = manual("srv6.1"), (TOP / "README.md").read_text()
        bash, zsh = (DOCS / "srv6.bash").read_text(), (DOCS / "_srv6").read_text()
        offered = re.search(r"compgen -W '([a-z ]+)' -- \"\$current\"\)\n        return", bash)
        self.assertEqual(set(offered[1].split()), set(commands()), "docs/srv6.bash")
        self.assertEqual(set(re.findall(r"^        '(\w+):", zsh, re.M)), set(commands()))
        for command in commands():
            with self.subTest(command):
                words = re.findall(r"[A-Z]+", re.split(" [<>]", FORMS[command])[0])
                entry = re.search(rf"(?m)^{command}\b.*$", page.split("\nCOMMANDS\n")[1])
                shown = re.search(rf"(?m)^\| (`{command}\b.*?) \|", readme)
                for place, text in (("docs/srv6.1", entry), ("README.md", shown)):
                    self.assertIsNotNone(text, place)
                    self.has(place, text[0], *words)


if __name__ == "__main__":
    unittest.main()
