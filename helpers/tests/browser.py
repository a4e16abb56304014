"""A browser for the tests of pages: the Chromium of the distribution, driven by its chromedriver
over HTTP.
"""

import base64
import contextlib
import json
import os
import shutil
import subprocess
import tempfile
import time
import unittest
import urllib.error
import urllib.request
from pathlib import Path
from typing import Any

ELEMENT = "element-6066-11e4-a52e-4f735466cecf"  # the key of an element (W3C WebDriver)
KEYS = {
    "left": "\ue012", "up": "\ue013", "right": "\ue014", "down": "\ue015", "enter": "\ue007",
    "escape": "\ue00c", "home": "\ue011", "end": "\ue010", "shift": "\ue008", "tab": "\ue004",
    "page down": "\ue00f",
}  # fmt: skip
SECONDS = 30


def _found() -> tuple[str, str] | None:
    """The paths of the browser and of its driver."""
    browser = shutil.which("chromium") or shutil.which("chromium-browser")
    driver = shutil.which("chromedriver")
    return (browser, driver) if browser and driver else None


def is_there() -> bool:
    """Whether the browser and its driver are there."""
    return _found() is not None


def needs_browser(test):
    """Skips a test where the browser or its driver isn't there."""
    return unittest.skipUnless(_found(), "chromium or chromedriver is missing")(test)


class Browser:
    """A window of the browser without a screen."""

    def __init__(self, width: int = 1280, height: int = 860, dark: bool = False):
        browser, driver = _found() or ("", "")
        self._folder = tempfile.TemporaryDirectory()
        self._log = Path(self._folder.name, "log")
        self._driver = subprocess.Popen(
            [driver, "--port=0"], stdout=self._log.open("wb"), stderr=subprocess.STDOUT
        )
        try:
            self._url = f"http://127.0.0.1:{self._port()}/session"
            self._url += "/" + self._begin(browser, width, height, dark)
        except BaseException:
            self.close()
            raise

    def _port(self) -> int:
        """The port that the driver says it listens to."""
        end = time.monotonic() + SECONDS
        while time.monotonic() < end:
            for line in self._log.read_text(errors="replace").splitlines():
                if "started successfully on port" in line:
                    return int(line.rstrip(".").split()[-1])
            time.sleep(0.05)
        raise OSError(f"chromedriver doesn't start: {self._log.read_text(errors='replace')[:500]}")

    def _begin(self, browser: str, width: int, height: int, dark: bool) -> str:
        words = [
            "--headless=new", "--disable-gpu", "--disable-dev-shm-usage", "--hide-scrollbars",
            f"--window-size={width},{height}", f"--user-data-dir={self._folder.name}/profile",
            "--force-device-scale-factor=1", "--no-first-run", "--disable-background-networking",
        ]  # fmt: skip
        if os.geteuid() == 0:
            words.append("--no-sandbox")
        if dark:
            words.append("--blink-settings=preferredColorScheme=0")
        options = {"binary": browser, "args": words}
        wanted = {"goog:chromeOptions": options, "goog:loggingPrefs": {"browser": "ALL"}}
        answer = self._ask("POST", "", {"capabilities": {"alwaysMatch": wanted}})
        return answer["sessionId"]

    def _ask(self, method: str, path: str, given: Any = None) -> Any:
        content = None if given is None else json.dumps(given).encode()
        request = urllib.request.Request(
            self._url + path, content, {"Content-Type": "application/json"}, method=method
        )
        try:
            with urllib.request.urlopen(request, timeout=120) as answer:
                return json.load(answer)["value"]
        except urllib.error.HTTPError as fault:
            raise OSError(f"{path}: {json.load(fault)['value']['message'][:600]}") from None

    def close(self) -> None:
        """Ends the browser and its driver."""
        if hasattr(self, "_url") and "/session/" in self._url:
            with contextlib.suppress(OSError):
                self._ask("DELETE", "")
        self._driver.terminate()
        self._driver.wait(SECONDS)
        with contextlib.suppress(OSError):
            self._folder.cleanup()

    def open(self, page: Path) -> float:
        """Opens a page from disk; gives the milliseconds from the start to where it has drawn
        itself.
        """
        self._ask("POST", "/url", {"url": page.resolve().as_uri()})
        end = time.monotonic() + SECONDS
        while self.run("return document.documentElement.dataset.ready") != "yes":
            if time.monotonic() > end:
                raise OSError(f"{page} doesn't get ready: {self.console()}")
            time.sleep(0.02)
        return self.run("return performance.timing.loadEventEnd - performance.timing.navigationStart")

    def run(self, script: str, *given: Any) -> Any:
        """What a script in the page returns."""
        return self._ask("POST", "/execute/sync", {"script": script, "args": list(given)})

    def _element(self, selector: str) -> str:
        asked = {"using": "css selector", "value": selector}
        return self._ask("POST", "/element", asked)[ELEMENT]

    def click(self, selector: str) -> None:
        """A click of the pointer in the middle of an element."""
        self._ask("POST", f"/element/{self._element(selector)}/click", {})

    def text(self, selector: str) -> str:
        """The text of an element, as it stands in the page."""
        return self.run("return document.querySelector(arguments[0]).textContent", selector)

    def texts(self, selector: str) -> list[str]:
        """The texts of all elements."""
        script = "return [...document.querySelectorAll(arguments[0])].map((one) => one.textContent)"
        return self.run(script, selector)

    def press(self, *keys: str, holding: str | None = None) -> None:
        """Presses keys, each a character or a name."""
        acts = [{"type": "keyDown", "value": KEYS[holding]}] if holding else []
        for key in keys:
            value = KEYS.get(key, key)
            acts += [{"type": "keyDown", "value": value}, {"type": "keyUp", "value": value}]
        if holding:
            acts.append({"type": "keyUp", "value": KEYS[holding]})
        self._ask("POST", "/actions", {"actions": [{"type": "key", "id": "keys", "actions": acts}]})

    def point(self, selector: str) -> None:
        """Moves the pointer onto an element, once that is seen."""
        self.run("document.querySelector(arguments[0]).scrollIntoView({ block: 'center' })", selector)
        place = {ELEMENT: self._element(selector)}
        move = {"type": "pointerMove", "duration": 0, "origin": place, "x": 0, "y": 0}
        acts = [{"type": "pointer", "id": "mouse", "actions": [move]}]
        self._ask("POST", "/actions", {"actions": acts})

    def drag(self, selector: str, x: int, y: int) -> None:
        """Drags from the middle of an element."""
        place = {ELEMENT: self._element(selector)}
        acts = [
            {"type": "pointerMove", "duration": 0, "origin": place, "x": 0, "y": 0},
            {"type": "pointerDown", "button": 0},
            {"type": "pointerMove", "duration": 50, "origin": "pointer", "x": x, "y": y},
            {"type": "pointerUp", "button": 0},
        ]
        self._ask("POST", "/actions", {"actions": [{"type": "pointer", "id": "mouse", "actions": acts}]})

    def busy(self, script: str) -> float:
        """The milliseconds that the page's thread works on a script, on what it draws then too; time in which the processor does
        other work isn't counted.
        """
        self._measure()
        before = self._worked()
        self.run(f"{script}; document.body.getBoundingClientRect()")
        return self._worked() - before

    def busy_opening(self, page: Path) -> float:
        """The milliseconds that the page's thread works until the page has drawn itself."""
        self._measure()
        self.open(page)
        return self._worked()

    def _measure(self) -> None:
        self._command("Performance.disable")
        self._command("Performance.enable", timeDomain="threadTicks")

    def _worked(self) -> float:
        rows = self._command("Performance.getMetrics")["metrics"]
        return next(row["value"] for row in rows if row["name"] == "TaskDuration") * 1000

    def settle(self) -> None:
        """Waits until the map has its sizes."""
        time.sleep(0.3)

    def console(self) -> list[str]:
        """What the console has of warnings and errors since it was asked last."""
        rows = self._ask("POST", "/se/log", {"type": "browser"})
        return [row["message"] for row in rows if row["level"] in ("WARNING", "SEVERE")]

    def screenshot(self, path: Path) -> None:
        """Writes the window as PNG."""
        path.write_bytes(base64.b64decode(self._ask("GET", "/screenshot")))

    def _command(self, name: str, **given: Any) -> Any:
        """A command of the DevTools protocol."""
        return self._ask("POST", "/goog/cdp/execute", {"cmd": name, "params": given})

    def emulate(self, media: str) -> None:
        """Shows the page as on a screen or as in print."""
        self._command("Emulation.setEmulatedMedia", media=media)

    def without_colour(self) -> None:
        """Shows the page as one sees it who sees no colours."""
        self._command("Emulation.setEmulatedVisionDeficiency", type="achromatopsia")

    def nameless(self) -> list[str]:
        """The roles of what can be used, or is an image, and has no name for those who listen."""
        wanted = {"button", "link", "slider", "searchbox", "checkbox", "tab", "image", "textbox"}
        tree = self._command("Accessibility.getFullAXTree")["nodes"]
        return [
            node["role"]["value"]
            for node in tree
            if not node.get("ignored")
            and node.get("role", {}).get("value") in wanted
            and not node.get("name", {}).get("value")
        ]

    def printed(self) -> bytes:
        """The page as it prints, in PDF."""
        return base64.b64decode(self._ask("POST", "/print", {"background": False}))
