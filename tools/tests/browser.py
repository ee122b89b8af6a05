"""A browser as the tests drive it: chromium, by the protocol of WebDriver (W3C) to chromedriver, with nothing to install for Python."""

from __future__ import annotations

import http.client
import json
import shutil
import subprocess
import time
from typing import Any

#: How an element is named in the protocol.
_ELEMENT = "element-6066-11e4-a52e-4f735466cecf"
KEYS = {"Home": "\ue011", "End": "\ue010", "Tab": "\ue004", "Enter": "\ue007", "Left": "\ue012", "Right": "\ue014"}


def missing() -> str:
    """What isn't installed of a browser and its driver."""
    return "" if shutil.which("chromedriver") and shutil.which("chromium") else "chromium and chromedriver aren't installed"


class Browser:
    """One window, from `start` to `end`."""

    def __init__(self, with_scripts: bool) -> None:
        self._driver = subprocess.Popen(
            ["chromedriver", "--port=0"], stdout=subprocess.PIPE, stderr=subprocess.DEVNULL, stdin=subprocess.DEVNULL, text=True
        )
        assert self._driver.stdout
        line = ""
        while "started successfully on port" not in line:
            line = self._driver.stdout.readline()
            if not line:
                raise RuntimeError("chromedriver ended")
        self._port = int(line.rstrip().rstrip(".").split()[-1])
        options: dict[str, Any] = {"args": ["--headless=new", "--no-sandbox", "--disable-gpu", "--disable-dev-shm-usage", "--window-size=1080,1000"]}
        if not with_scripts:
            options["prefs"] = {"profile.managed_default_content_settings.javascript": 2}
        wanted = {"goog:chromeOptions": options, "goog:loggingPrefs": {"browser": "ALL"}}
        self._session = ""
        session = self._ask("POST", "/session", {"capabilities": {"alwaysMatch": wanted}})
        self._session = f"/session/{session['sessionId']}"

    def end(self) -> None:
        try:
            self._ask("DELETE", "")
        finally:
            self._driver.terminate()
            self._driver.communicate()

    def go(self, address: str) -> None:
        self._ask("POST", "/url", {"url": address})

    @property
    def address(self) -> str:
        return self._ask("GET", "/url")

    def wait_for(self, part: str) -> str:
        """The address, once it has this part."""
        end = time.monotonic() + 20
        while part not in self.address and time.monotonic() < end:
            time.sleep(0.05)
        return self.address

    def press(self, css: str, keys: str) -> None:
        self._ask("POST", f"/element/{self.element(css)}/value", {"text": keys})

    def click(self, css: str) -> None:
        self._ask("POST", f"/element/{self.element(css)}/click", {})

    def point(self, css: str, right: float, down: float) -> None:
        """Clicks on a place of an element, as parts of its width and height."""
        box = self._ask("GET", f"/element/{self.element(css)}/rect")
        x, y = int(box["x"] + right * box["width"]), int(box["y"] + down * box["height"])
        steps = [{"type": "pointerMove", "duration": 0, "x": x, "y": y}, {"type": "pointerDown", "button": 0}, {"type": "pointerUp", "button": 0}]
        self._ask("POST", "/actions", {"actions": [{"type": "pointer", "id": "mouse", "actions": steps}]})

    def focused(self) -> str:
        """The name or the text of the element that has the focus."""
        node = self._ask("GET", "/element/active")[_ELEMENT]
        name = self._ask("GET", f"/element/{node}/attribute/id")
        return name or self._ask("GET", f"/element/{node}/text")

    def text(self, css: str) -> str:
        return self._ask("GET", f"/element/{self.element(css)}/text")

    def value(self, css: str) -> str:
        return self._ask("GET", f"/element/{self.element(css)}/property/value")

    def title(self) -> str:
        return self._ask("GET", "/title")

    def log(self) -> list[str]:
        """What the browser has to say against the pages."""
        return [entry["message"] for entry in self._ask("POST", "/se/log", {"type": "browser"})]

    def element(self, css: str) -> str:
        return self._ask("POST", "/element", {"using": "css selector", "value": css})[_ELEMENT]

    def _ask(self, method: str, path: str, body: object = None) -> Any:
        connection = http.client.HTTPConnection("127.0.0.1", self._port, timeout=90)
        try:
            connection.request(method, self._session + path, None if body is None else json.dumps(body), {"Content-Type": "application/json"})
            value = json.loads(connection.getresponse().read())["value"]
        finally:
            connection.close()
        if isinstance(value, dict) and "error" in value:
            raise RuntimeError(f"{method} {path}: {value['error']}: {value['message'].splitlines()[0]}")
        return value
