"""what-if: its verdicts against all walks of the program over failed descriptions, tables, words."""

import json
import unittest
from pathlib import Path

from srv6tools.captures import raw_capture
from srv6tools.description import Network, read_network
from srv6tools.engine import find_engine
from srv6tools.failing import Failing, Named, Outcome
from srv6tools.failures import Failure, cables_of, each_failure, read_sets
from srv6tools.fans import each_walk
from srv6tools.files import parse_toml, read_toml
from srv6tools.intent import intent_of
from srv6tools.mesh import Asked, compile_all
from srv6tools.planned import Planned
from srv6tools.routes import fill
from srv6tools.sent_packets import Targets
from srv6tools.toml_writer import compact_text
from srv6tools.walks import Walks
from srv6tools.what_if_table import read_what_if
from support import EXAMPLES, ToolCase, bad_tomls, needs_engine, needs_program, run_here, run_tool

DOMAIN = EXAMPLES / "domain"
BASE, PLAN, NET = (DOMAIN / f"{name}.toml" for name in ("base", "plan", "net"))
INTENTS = [DOMAIN / f"{name}.toml" for name in ("red", "any-way", "by-firewall", "green", "blue")]
SETS = '[[set]]\nname = "east"\nnodes = ["p5", "p6"]\n\n[[set]]\nname = "west"\nlinks = ["pe1-p1", "pe1-p2"]\n'


def named(paths: list[Path], planned: Planned) -> list[Named]:
    """Intents with their lists in the whole network."""
    texts = {path.stem: path.read_text() for path in paths}
    asked = [Asked(name, "", "", text) for name, text in texts.items()]
    lists = compile_all(planned.text(planned.whole), planned.whole, asked, 1)
    return [
        Named(one.name, one.text, intent_of(parse_toml(one.text, one.name), one.name), one)
        for one in lists
        if one.has_list
    ]


def failed_root(root: dict, down: set[str]) -> dict:
    """A description whose routes and SIDs lost links, written apart from the tools."""
    left = {table: [dict(row) for row in rows] for table, rows in root.items()}
    for table, key in (("route", "via"), ("sid", "links")):
        rows = left.get(table, [])
        for row in rows:
            if key in row:
                row[key] = [name for name in row[key] if name not in down]
        left[table] = [row for row in rows if row.get(key) != []]
    return left


def plan_without(planned: Planned, down: set[str]) -> str:
    """The plan without cables and sites that are down; the others keep their links' names."""
    root = read_toml(str(planned.plan_path))
    kept = []
    for row, links in zip(root["cable"], planned.pairs):
        if not set(links) & down:
            kept.append(row | {"links": list(links)})
    sites = [row for row in root.get("site", []) if row["link"] not in down]
    scalars = "".join(f"{key} = {value}\n" for key, value in root.items() if isinstance(value, int))
    return scalars + compact_text({"cable": kept, "site": sites, "locator": root.get("locator", [])})


class Steps:
    """What walks do of an intent's steps, read off the program's traces."""

    def __init__(self, net: Network, intent) -> None:
        self.net, self.steps = net, intent.steps
        self.titles = {(sid.node, str(sid.prefix)): sid.title for sid in net.sids}

    def are_done(self, walk, inner_size: int) -> bool:
        """Whether a walk crosses and executes them all, in order and nothing else, up to the hand-over."""
        position = 0
        for visit, hop in walk:
            for sid in hop.sids:
                title = self.titles[visit.node, sid]
                if title is not None:
                    if position == len(self.steps) or self.steps[position].function != title:
                        return False
                    position += 1
            if hop.link and len(hop.packet) <= inner_size:  # the packet inside is out
                return position == len(self.steps)
            if not hop.link:
                return False
            end = self.net.links[hop.link].end
            step = self.steps[position] if position < len(self.steps) else None
            if step is None or end is None or step.function:
                return False
            if step.reach:
                position += end == step.reach
            elif hop.link not in step.links:
                return False
            else:
                position += 1
        return False


@needs_engine
@needs_program
class Against(ToolCase):
    """Verdicts against all walks of a packet with the installed list, by `srv6 trace`."""

    def judge(self, net_path: Path, planned: Planned, one: Named, verdict) -> None:
        net = read_network(net_path)
        sent = Targets(planned.whole).sent(planned.whole, one.intent, one.installed.segments)
        walks = Walks(net, 5_000)
        (start,) = walks.from_node(sent.headend, b"".join(raw_capture([(0, 0, sent.packet)])))
        steps = Steps(net, one.intent)
        done = [steps.are_done(walk, len(sent.inner)) for walk in each_walk(walks, start)]
        self.assertTrue(done)
        if verdict.cause in ("apart", "unexecuted"):
            return
        self.assertEqual(verdict.holds, all(done), (one.name, verdict))

    def try_all(self, planned: Planned, paths: list[Path], failures: list[Failure]) -> int:
        intents = named(paths, planned)
        self.assertTrue(intents)
        failing = Failing(planned, intents, False, False)
        list(failing.probe())
        failing.begin()
        self.addCleanup(failing.engine.close)
        whole = parse_toml(planned.text(planned.whole), "whole")
        broken = 0
        for failure in failures:
            down = set(planned.down(failure.links, failure.nodes))
            once = self.file("once.toml", compact_text(failed_root(whole, down)))
            after = once
            if planned.plan:
                base = parse_toml(planned.text(planned.static), "static") | {"route": []}
                base["link"] = [row for row in base["link"] if row["name"] not in down]
                left = self.file("base.toml", compact_text(failed_root(base, down)))
                cut = self.file("plan.toml", plan_without(planned, down))
                after = self.file("after.toml", fill(left, cut, True).text)
            for one, case in zip(intents, failing.cases(failure)):
                if case.outcome is Outcome.LEFT_OUT:
                    continue
                with self.subTest(str(failure), intent=one.name):
                    self.judge(once, planned, one, case.at_once)
                    self.judge(after, planned, one, case.after)
                broken += not case.at_once.holds
        return broken

    def test_a_domain_with_a_plan(self):
        planned = Planned(BASE, PLAN)
        some = list(each_failure(planned.static, planned.pairs, ("cable", "bundle", "node")))
        some = [one for one in some if one.name in ("pe1-p1", "p1-p3", "p1-p3-2", "p3-p5", "p4-p6", "fw1-p3", "p2", "p6", "fw2")]
        self.assertEqual(len(some), 10)
        self.assertGreater(self.try_all(planned, INTENTS, some), 10)

    def test_what_no_failure_touches_is_judged_alike(self):
        """The verdicts at once that stand over from the whole network are those of the network without each link."""
        planned = Planned(BASE, PLAN)
        intents = named(INTENTS, planned)
        failing = Failing(planned, intents, False, False)
        list(failing.probe())
        failing.begin()
        self.addCleanup(failing.engine.close)
        known, none = failing.untouched, [None for _ in intents]
        if not failing.judging.engine_can:
            self.assertTrue(all(known))
        for link in planned.whole.links.values():
            failure, found = Failure("set", link.name, (link.name,)), []
            for failing.untouched in (known, none):
                found.append(failing.cases(failure))
            with self.subTest(link.name):
                self.assertEqual(*found)

    def test_networks_with_static_routes(self):
        """Plain and compressed SIDs, binding SIDs, nested functions, loose steps, equal next hops."""
        for net in ("m2", "compressed", "policy", "nested"):
            with self.subTest(net):
                planned = Planned(EXAMPLES / f"{net}.toml")
                failures = list(each_failure(planned.static, [], ("cable", "node")))
                self.assertGreater(self.try_all(planned, [EXAMPLES / "intent.toml"], failures), 0)


class Failures(ToolCase):
    def test_cables_bundles_and_nodes(self):
        planned = Planned(BASE, PLAN)
        found = list(each_failure(planned.static, planned.pairs, ("cable", "bundle", "node")))
        self.assertEqual([one.kind for one in found], ["cable"] * 21 + ["bundle"] + ["node"] * 14)
        bundle = next(one for one in found if one.kind == "bundle")
        self.assertEqual(bundle.links, ("p1-p3", "p3-p1", "p1-p3-2", "p3-p1-2"))
        # without a plan they are found by the ends of links, and links that leave the network are none
        self.assertEqual(set(cables_of(read_network(NET), [])), set(planned.pairs))

    def test_links_of_one_direction(self):
        net = read_network(EXAMPLES / "m2.toml")
        self.assertTrue(all(len(cable) == 1 for cable in cables_of(net, [])))

    def test_sets(self):
        planned = Planned(BASE, PLAN)
        east, west = read_sets(self.file("sets.toml", SETS), planned.static)
        self.assertEqual((east.nodes, west.links, west.nodes), (("p5", "p6"), ("pe1-p1", "pe1-p2"), ()))
        self.assertIn("p5-p6", east.links)

    def test_networks_from_failures_are_those_of_the_engine(self):
        """What is left is as `docs/FORMATS.md` says, in its parts and its text."""
        planned = Planned(BASE, PLAN)
        self.assertEqual(planned.whole.routes, read_network(NET).routes)
        left = planned.again(planned.down(["p1-p3", "p3-p1"], ["p6"]))
        again = parse_toml(planned.text(left), "left")
        self.assertEqual(len(again["link"]), len(planned.static.links))
        self.assertEqual(len(again["route"]), len(left.routes))
        wide = next(sid for sid in left.sids if str(sid.prefix) == "fcbb:bb00:e0a3::/48")
        self.assertEqual(wide.links, ("p1-p3-2",))
        self.assertFalse([sid for sid in left.sids if sid.links and set(sid.links) & {"p1-p3"}])


class Words(ToolCase):
    def test_help_and_words(self):
        self.helps("what-if")
        for words in ((BASE,), (BASE, PLAN), (BASE, PLAN, INTENTS[0], "--only", "fibre"), (BASE, PLAN, INTENTS[0], "--fail-on", "x")):
            with self.subTest(words):
                self.assertEqual(run_here("what-if", *words).status, 2)

    def test_sets_that_are_none(self):
        for text in (
            "[[group]]\n", "[[set]]\nname = 'a'\n", "[[set]]\nlinks = ['pe1-p1']\n", "set = 1\n",
            "[[set]]\nname = 'a'\nlinks = ['x']\n", "[[set]]\nname = 'a'\nnodes = ['x']\n",
            SETS.replace("west", "east"), "[[set]]\nname = 'a'\nnode = ['p1']\n",
        ):  # fmt: skip
            with self.subTest(text):
                self.named_answer(run_here("what-if", BASE, PLAN, INTENTS[0], "--sets", self.file("s.toml", text)))

    def test_files_that_are_none(self):
        for name, text in bad_tomls():
            with self.subTest(name):
                path = self.file("bad.toml", text)
                self.named_answer(run_here("what-if", path, PLAN, INTENTS[0]), (1, 2, 5))
                self.named_answer(run_here("what-if", BASE, path, INTENTS[0]), (1, 2, 5))


@needs_engine
class Tables(ToolCase):
    def what_if(self, *words: str | Path) -> tuple[int, str]:
        ran = run_tool("what-if", *words, "--jobs", "2")
        for line in ran.err.splitlines():
            self.assertRegex(line, "^what-if: (srv6-pce (has no `judge`|finds no routes again)|no plan: )")
        return ran.status, ran.out

    def test_tables_and_details(self):
        sets = self.file("sets.toml", SETS)
        words = (BASE, PLAN, *INTENTS[:2], "--only", "cable,set", "--sets", sets, "--details")
        status, out = self.what_if(*words)
        self.assertEqual(status, 4)
        for line in (
            "23 failures (21 cables, 2 sets), 2 intents",
            "red      6        6      6        cable pe1-p1, cable p3-p5, cable pe3-p5, cable fw1-p3 and 2 more",
            "any-way  7        2      2        set east, set west",
            "cable p2-p4: any-way: at once: breaks at SID 1 (uN pe3), lost: p2 has no route to fcbb:bb00:13::; after: holds",
            "14 failures more: no list breaks",
        ):  # fmt: skip
            self.assertIn(line, out.splitlines())
        self.assertEqual(self.what_if(BASE, PLAN, INTENTS[1], "--only", "cable")[0], 0)
        self.assertEqual(self.what_if(BASE, PLAN, INTENTS[1], "--only", "cable", "--fail-on", "at-once")[0], 4)

    def test_a_file_of_lists_and_the_viewer(self):
        """Lists that are installed are judged, also where they aren't the least; the viewer reads the table."""
        made = run_here("mesh", BASE, PLAN, "--to-title", "red-pe3", "--headend", "pe1", "pe2", "--via", "p4", "--json").out
        lists = self.file("lists.json", made)
        status, out = self.what_if(BASE, PLAN, lists, "--only", "node", "--json")
        table = json.loads(out)
        self.assertEqual((status, table["intents"]), (4, ["pe1-to-red-pe3", "pe2-to-red-pe3"]))
        read = read_what_if(self.file("w.json", out), read_network(NET))
        by_name = {failure.name: cells for failure, cells in zip(read.failures, read.cells)}
        self.assertEqual([cell.state for cell in by_name["node pe1"]], ["refused", "kept"])
        self.assertEqual([(cell.containers, cell.need) for cell in by_name["node pe1"]], [(None, None), (1, 4)])
        self.assertEqual([cell.state for cell in by_name["node p4"]], ["none", "none"])
        self.assertEqual(by_name["node p4"][0].why, "step 1 (reach p4): no way leads there from pe1")
        lost = by_name["node p2"][0]
        self.assertEqual((lost.state, lost.at_once.arrives, lost.traffic.arrives), ("other", False, False))

    def test_lists_by_name_and_mtus(self):
        net = self.file("net.toml", NET.read_text().replace('{ name = "p5-pe3", from', '{ mtu = 1500, name = "p5-pe3", from'))
        made = run_here("mesh", net, "--to-title", "red-pe3", "--headend", "pe1", "--json")
        lists = self.file("lists.json", made.out.replace("pe1-to-red-pe3", "any-way"))
        status, out = self.what_if(net, INTENTS[1], "--lists", lists, "--only", "cable", "--json")
        self.assertEqual(status, 4)
        cells = [row[0] for row in json.loads(out)["cells"]]
        self.assertEqual({cell["largest_inner"] for cell in cells}, {1460, 65535})

    def test_a_page(self):
        status, out = self.what_if(BASE, PLAN, INTENTS[1], "--only", "bundle", "--html", "--title", "Bundles")
        self.assertEqual(status, 0)
        self.assertTrue(out.startswith("<!DOCTYPE html>"))
        self.assertIn("bundle p1-p3", out)

    def test_an_engine_that_judges_and_finds_routes_again(self):
        """It is asked for both, nothing is said of a model, and lists after a failure are those of the other way."""
        words = (BASE, PLAN, INTENTS[1], "--only", "cable,node", "--json", "--least", "--jobs", "2")
        settings = {"SRV6_PCE": str(Path(__file__).parent / "engine_to_come.py"), "BELOW": find_engine()}
        ran, other = run_tool("what-if", *words, **settings), run_tool("what-if", *words)
        self.assertEqual((ran.status, ran.err), (0, ""))
        rows = [[row[0] for row in json.loads(one.out)["cells"]] for one in (ran, other)]
        judged = [cell["judged"] for cell in rows[0] if cell["state"] != "refused"]
        self.assertEqual({(one["answer"], one["by"]) for one in judged}, {("realizes", "srv6-pce")})
        keys = "segments", "answer", "state"
        self.assertEqual(*[[[cell[key] for key in keys] for cell in cells] for cells in rows])

    def test_a_network_that_isnt_flat(self):
        """Also where its lists are told, so that none is compiled."""
        lists = self.file("lists.json", run_here("mesh", NET, "--to-title", "red-pe3", "--headend", "pe1", "--json").out)
        inside = '    { node = "p1", prefix = "fcbb:bb00:13:1::/64", via = ["p1-p2"] },'
        net = self.file("net.toml", NET.read_text().replace("route = [", f"route = [\n{inside}"))
        ran = run_here("what-if", net, lists)
        self.named_answer(ran, (1,))
        self.assertIn("the network isn't flat: 41 Nested", ran.err)

    def test_no_list_to_begin_with(self):
        ran = run_here("what-if", BASE, PLAN, DOMAIN / "no-list.toml")
        self.assertEqual((ran.status, ran.out), (3, ""))
        self.named_answer(run_here("what-if", BASE, PLAN, INTENTS[0], INTENTS[0]), (1,))

    def test_no_engine(self):
        ran = run_tool("what-if", BASE, PLAN, INTENTS[0], SRV6_PCE=str(self.folder / "none"))
        self.assertEqual((ran.status, len(ran.err.splitlines())), (6, 1))


if __name__ == "__main__":
    unittest.main()
