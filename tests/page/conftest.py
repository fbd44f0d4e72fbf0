"""Fixtures that open captures on the page, and Chromium with the page."""
from __future__ import annotations

import json
import pathlib
import shutil
import subprocess
from typing import Any, Callable, Iterator

import pytest

from tests.cases import TOP
from tests.made import module, page  # noqa: F401 (fixtures)

# The widths of a phone, another phone, a window of 1,280 pixels at a zoom of 200 %, a tablet, a projector (or a zoom of
# 125 %), a laptop and a large screen, and the heights of their windows.
HEIGHTS = {360: 740, 390: 844, 640: 450, 768: 1024, 1024: 768, 1280: 800, 1600: 1000}
DOUBLE = 640
UNTIL_READY = """new Promise(done => {
    const look = () => (document.body && document.body.dataset.ready ? done() : setTimeout(look, 20));
    look();
})"""
PROGRAMS = ["chromium", "chromium-browser", "google-chrome"]
# The time limit in seconds for a reply of Chromium.
END = 1200
KEYS = {"Tab": 9, "Enter": 13, "Escape": 27, "ArrowLeft": 37, "ArrowUp": 38, "ArrowRight": 39, "ArrowDown": 40}


class Browser:
    """Headless Chromium, controlled by chromedriver."""

    def __init__(self, home: pathlib.Path) -> None:
        # here, since tests that lack it import this module, too
        from selenium import webdriver

        options = webdriver.ChromeOptions()
        options.binary_location = next(filter(None, map(shutil.which, PROGRAMS)))
        for it in ("--headless=new", "--no-sandbox", "--disable-gpu", "--no-first-run", f"--user-data-dir={home}"):
            options.add_argument(it)
        options.set_capability("goog:loggingPrefs", {"browser": "ALL", "performance": "ALL"})
        service = webdriver.chrome.service.Service(shutil.which("chromedriver"))
        self.driver = webdriver.Chrome(service=service, options=options)
        self.driver.command_executor.set_timeout(END)

    def new_tab(self) -> None:
        """Replaces the open tab by an empty one. What pages have stored is removed."""
        new = self.ask("Target.createTarget", url="about:blank")["targetId"]
        self.driver.close()
        self.driver.switch_to.window(new)
        self.ask("Storage.clearDataForOrigin", origin="file://", storageTypes="all")
        self.ask("Accessibility.enable")

    def ask(self, method: str, **params: Any) -> dict[str, Any]:
        return self.driver.execute_cdp_cmd(method, params)

    def run(self, code: str) -> Any:
        """Returns the result of a piece of JavaScript in the page."""
        got = self.ask("Runtime.evaluate", expression=code, awaitPromise=True, returnByValue=True)
        if "exceptionDetails" in got:
            fault = got["exceptionDetails"]
            raise RuntimeError(fault.get("exception", {}).get("description", fault["text"]))
        return got["result"].get("value")

    def open(self, file: pathlib.Path, more: str = "") -> None:
        """Opens the page, with the functions of in_page.js. `more` is what follows the file in the address."""
        self.ask("Page.navigate", url=file.resolve().as_uri() + more)
        self.run(UNTIL_READY)
        self.run((TOP / "page/test/in_page.js").read_text(encoding="utf-8"))

    def resize(self, width: int) -> Browser:
        size = {"width": width, "height": HEIGHTS[width], "deviceScaleFactor": 2 if width == DOUBLE else 1}
        self.ask("Emulation.setDeviceMetricsOverride", **size, mobile=False)
        return self

    def press(self, key: str) -> None:
        """Presses a key as a user does. Enter has a text too, which submits a form, and so has a letter or a digit."""
        about = {"key": key, "code": key, "windowsVirtualKeyCode": KEYS[key] if key in KEYS else ord(key)}
        text = "\r" if key == "Enter" else key
        self.ask("Input.dispatchKeyEvent", type="keyDown", **about, **({"text": text} if len(text) == 1 else {}))
        self.ask("Input.dispatchKeyEvent", type="keyUp", **about)

    def complaints(self) -> Iterator[str]:
        """Returns the console's messages, the exceptions, and the network requests."""
        yield from (f"the console: {it['message'][:200]}" for it in self.driver.get_log("browser"))
        for event in (json.loads(it["message"])["message"] for it in self.driver.get_log("performance")):
            if event["method"] == "Network.requestWillBeSent":
                url = event["params"]["request"]["url"]
                if not url.startswith(("file:", "data:", "blob:", "chrome:")):
                    yield f"it asked the network for {url}"


@pytest.fixture(scope="session")
def plays_captures(page: pathlib.Path) -> Callable[..., list[dict[str, Any]]]:  # noqa: F811
    """plays_captures(FILE ..) returns the page's scripts for capture files, as page/test/captured.js prints them."""

    def play(*files: pathlib.Path) -> list[dict[str, Any]]:
        words = ["node", TOP / "page/test/captured.js", page.with_name("page.wasm"), *files]
        done = subprocess.run(words, capture_output=True, text=True, check=False)
        if done.returncode:
            pytest.fail(done.stderr[-2000:], pytrace=False)
        return [json.loads(line) for line in done.stdout.splitlines()]

    return play


@pytest.fixture(scope="session")
def started(tmp_path_factory: pytest.TempPathFactory) -> Iterator[Browser]:
    """Headless Chromium. It takes 6 processor seconds to start, so the modules of a worker share it."""
    browser = Browser(tmp_path_factory.mktemp("chromium"))
    yield browser
    browser.driver.quit()


@pytest.fixture(scope="module")
def chromium(page: pathlib.Path, started: Browser) -> Iterator[Browser]:  # noqa: F811
    """A new tab with the page open, without anything of yours. At the end of a module its console must be empty, and it
    may have asked no network for anything."""
    started.new_tab()
    started.open(page)
    yield started
    assert not [*started.complaints()]


@pytest.fixture(name="at_width")
def page_at_width(chromium: Browser) -> Callable[[int], Browser]:
    """at_width(WIDTH) opens the page at a width, without anything of yours."""
    chromium.run("document.querySelectorAll('dialog[open]').forEach(it => it.close())")
    chromium.run("localStorage.clear(); setTheme('light'); setSize('normal'); fold(true); showStart(false)")
    return chromium.resize
