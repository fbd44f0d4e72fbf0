"""The page by keyboard only, in Chromium, and its buttons, fields and forms, which functions of page/test/in_page.js
use."""
import json

import pytest

from tests.packets import datagram
from tests.pcaps import header, record

pytestmark = [pytest.mark.needs("rt", "wasm-opt", "chromium"), pytest.mark.slow]

CAPTURE = header() + record("<", 0, 0, datagram(b"hi"))


def faults_of_tabs(browser):
    """Returns what takes input and isn't reached by the Tab key, or by arrow keys if it's a row of the script, and what
    has no mark when it's reached."""
    faults, stops = [], browser.run("startTabs()")
    for key, presses in browser.run("arrowsThroughRows()"):
        for _ in range(presses):
            browser.press(key)
            faults += browser.run("noteFocus()")
    for _ in range(stops + 3):
        browser.press("Tab")
        faults += browser.run("noteFocus()")
    return faults + browser.run("unreached()")


@pytest.mark.parametrize(
    "tab, name, place",
    [("run", "01_a_datagram", 0), ("chain", "04_headers_in_front", 0), ("wire", "13_a_request_and_its_answer", 9)],
)
def test_tab_reaches_all_that_takes_input(tab, name, place, at_width):
    browser = at_width(1600)
    browser.run(f"open({json.dumps(tab)}, {{ name: {json.dumps(name)}, place: {place} }})")
    assert faults_of_tabs(browser) == []


def stops_before(browser, element):
    """Returns the number of Tab stops from the first one of the page to an element."""
    browser.run("byId('skip').focus()")
    for n in range(2, 100):
        browser.press("Tab")
        if browser.run(f"document.activeElement.id === '{element}'"):
            return n
    return None


@pytest.mark.parametrize("width", [640, 1280])
def test_the_steps_are_few_tab_stops_away_in_a_long_script(width, at_width):
    browser = at_width(width)
    text = "\n".join(["socket", "bind 3 0.0.0.0 7", *["tick"] * 300, ""])
    browser.run(f"open('run', {{ text: {json.dumps(text)}, place: 99 }}); showLeft('read')")
    assert stops_before(browser, "first") <= 20
    browser.run("fold(false)")
    assert stops_before(browser, "first") <= 20


def test_the_first_tab_stop_skips_to_the_steps(page, at_width):
    browser = at_width(1280)
    browser.open(page)
    browser.press("Tab")
    assert browser.run("document.activeElement.id") == "skip"
    box = browser.run("(({ left, top, width, height }) => [left, top, width, height])"
                      "(document.activeElement.getBoundingClientRect())")
    assert min(box) >= 0 and box[2] > 60 and box[3] > 20, "the skip button isn't seen when it has the focus"
    browser.press("Enter")
    assert browser.run("document.activeElement.id") == "forth"


def test_after_a_choice_from_the_list_arrows_step_and_digits_answer(at_width):
    """A digit isn't a search in the list, neither at the question nor before it."""
    browser = at_width(1280)
    browser.run("open('run', { name: '08_wildcards_and_the_best_control_block' }); byId('choice').focus()")
    browser.press("ArrowDown")
    assert browser.run("page.known.name") == "09_broadcast_to_two"
    asked = browser.run("page.firstQuestion")
    for place in range(asked):
        browser.press("1")
        assert browser.run("[page.known.name, page.at]") == ["09_broadcast_to_two", place]
        browser.press("ArrowRight")
    browser.press("1")
    assert browser.run("[page.known.name, page.at]") == ["09_broadcast_to_two", asked]
    assert browser.run("[document.activeElement.value, document.activeElement.checked]") == ["0", True]
    browser.press("Enter")
    assert browser.run("page.guesses.has(page.at)")


@pytest.mark.parametrize("button, dialog", [("make", "maker"), ("about", "proved")])
def test_enter_opens_a_dialog_and_escape_closes_it(button, dialog, at_width):
    browser = at_width(1600)
    browser.run(f"open('run', {{ name: '01_a_datagram' }}); byId('{button}').focus()")
    browser.press("Enter")
    assert browser.run(f"byId('{dialog}').open")
    assert faults_of_tabs(browser) == []
    browser.press("Escape")
    assert browser.run(f"[byId('{dialog}').open, document.activeElement === byId('{button}')]") == [False, True]


@pytest.mark.parametrize("what", ["Keys", "Making", "Wire", "Guide", "Forms", "Exercises", "Saving"])
def test_actions(what, at_width):
    assert at_width(1600).run(f"faultsOf(try{what})") == []


def test_captures(at_width):
    assert at_width(1600).run(f"faultsOf(tryCapture, '{CAPTURE.hex()}')") == []
