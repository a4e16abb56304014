"""The client of srv6-pce: requests, errors by their names, engines that end; and examples/embed.py."""

import os
import subprocess
import sys
import tomllib
from pathlib import Path

from srv6tools import engine as client
from support import EXAMPLES, ToolCase, needs_engine

NET = (EXAMPLES / "compressed.toml").read_text()
INTENT = (EXAMPLES / "intent.toml").read_text()


def to_d() -> bytes:
    """A packet to the last SID of the intent, with nothing inside."""
    return bytes.fromhex("6000000000003b4020010db8000100000000000000000001fcbbbb0000040000" + "00" * 8)


@needs_engine
class Asked(ToolCase):
    def setUp(self) -> None:
        super().setUp()
        self.engine = client.Engine()
        self.addCleanup(self.engine.close)

    def test_all_requests(self):
        engine = self.engine
        self.assertEqual(engine.version(), {"program": "srv6-pce", "protocol": 1})
        parts = tomllib.loads(NET)
        counts = {f"{part}s": len(parts[part]) for part in ("link", "node", "route", "sid")}
        whole = client.Held(flat=True, **counts)
        self.assertEqual(engine.load("n", network=NET), whole)
        self.assertEqual(engine.load("f", file=str(EXAMPLES / "compressed.toml")), whole)
        found = engine.compile("n", INTENT)
        self.assertEqual((found.answer, found.containers, found.need), ("list", 1, 4))
        self.assertEqual(found.segments, ("fcbb:bb00:2:e001:4:f001::",))
        self.assertEqual(len(found.path), found.sids)
        self.assertEqual(found.certificate, "")
        certified = engine.compile("n", INTENT, certificate=True)
        self.assertTrue(certified.certificate.startswith("srv6 certificate 1\n"))
        cut = engine.without("n", "cut", links=["bc1"])
        self.assertEqual(cut.links, counts["links"])
        self.assertEqual(engine.compile("cut", INTENT).answer, "NoList")
        self.assertTrue(engine.trace("n", "B", to_d()).startswith("srv6 trace 1\npacket 1 6 B "))
        engine.drop("n")
        with self.assertRaises(client.UnknownName):
            engine.compile("n", INTENT)
        self.assertEqual(engine.close(), 0)

    def test_errors_have_their_names(self):
        engine = self.engine
        engine.load("n", network=NET)
        for error, fields, asked in (
            (client.Refused, {"why": "21 NotToml"}, lambda: engine.load("m", network="=")),
            (client.Refused, {"why": "33 Text NotToml"}, lambda: engine.compile("n", "=")),
            (client.UnknownName, {"unknown": "x"}, lambda: engine.compile("x", INTENT)),
            (client.UnknownName, {"unknown": "x"}, lambda: engine.without("n", "m", links=["x"])),
            (client.BadFile, {}, lambda: engine.load("m", file=str(self.folder / "none"))),
            (client.BadRequest, {"field": "network"}, lambda: engine.load("m")),
            (client.BadRequest, {"field": "packet"}, lambda: engine.trace("n", "B", b"")),
            (client.BadRequest, {"field": "x"}, lambda: engine.ask("version", x=1)),
        ):
            with self.subTest(error.__name__), self.assertRaises(error) as raised:
                asked()
            self.assertEqual(raised.exception.fields, fields)

    def test_an_example_compiles_a_mesh(self):
        words = [sys.executable, EXAMPLES / "embed.py", EXAMPLES / "domain" / "net.toml"]
        done = subprocess.run(words, capture_output=True, text=True)
        self.assertEqual((done.returncode, done.stderr), (0, ""))
        self.assertIn(" list fcbb:bb00:", done.stdout)
        self.assertLessEqual(len((EXAMPLES / "embed.py").read_text().splitlines()), 40)


class Ended(ToolCase):
    def engine(self, script: str) -> client.Engine:
        """An engine that is this script."""
        path = self.file("engine", f"#!/bin/sh\n{script}\n")
        path.chmod(0o755)
        engine = client.Engine(str(path))
        self.addCleanup(engine.close)
        return engine

    def test_no_program(self):
        with self.assertRaises(client.EngineEnded):
            client.Engine(str(self.folder / "none"))

    def test_an_engine_that_ends_is_told(self):
        for script in ("exit 5", "read line; exit 6", "read line; printf '{\"id\":1'; exit 5"):
            with self.subTest(script), self.assertRaises(client.EngineEnded):
                self.engine(script).version()

    def test_a_reply_to_another_request_is_told(self):
        engine = self.engine('read line; echo \'{"id":2,"ok":{}}\'')
        with self.assertRaises(client.EngineEnded):
            engine.drop("n")

    def test_an_error_of_a_later_version_is_told(self):
        engine = self.engine('read line; echo \'{"error":{"name":"New","why":"x"},"id":1}\'')
        with self.assertRaises(client.EngineError) as raised:
            engine.drop("n")
        self.assertEqual(str(raised.exception), "New x")

    def test_the_path_of_the_environment_comes_first(self):
        path = self.file("engine", "")
        before = os.environ.get("SRV6_PCE")
        os.environ["SRV6_PCE"] = str(path)
        try:
            self.assertEqual(Path(client.find_engine()), path)
        finally:
            del os.environ["SRV6_PCE"]
            if before is not None:
                os.environ["SRV6_PCE"] = before
