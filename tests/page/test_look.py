"""The page in Chromium, at the width of a phone, a tablet and a small laptop: what is hidden until a question is
answered, and the positions of options and buttons."""
import base64
import json
import re

import pytest

from tests.cases import TOP
from tests.packets import datagram, left_to_card
from tests.page.conftest import DOUBLE, HEIGHTS
from tests.pcaps import header, record

pytestmark = [pytest.mark.needs("rt", "wasm-opt", "chromium"), pytest.mark.slow]

LESSONS = sorted((it.parent.name, it.stem) for it in (TOP / "page/lessons").glob("*/*.txt"))


def opened(browser, mode, name):
    browser.run(f"open({json.dumps(mode)}, {{ name: {json.dumps(name)} }})")


# ---- questions


@pytest.mark.parametrize("mode, name", LESSONS)
def test_lines_behind_a_question_are_hidden_until_it_is_answered(mode, name, at_width):
    """And so is its own reply."""
    browser = at_width(1280)
    opened(browser, mode, name)
    browser.run("select(page.firstQuestion)")
    reply, row = browser.run("[page.steps[page.at].reply, byId('rows').children[page.at].textContent]")
    assert reply not in row
    assert " now " not in browser.run("byId('curve').querySelector('svg').getAttribute('aria-label')")
    assert browser.run("document.querySelector('#look .predict') !== null")
    for how in ("0", "byId('forth').click()", "byId('last').click()", "byId('rows').lastChild.firstChild.click()"):
        browser.run(how)
        said = browser.run("byId('look').textContent + byId('said').textContent")
        step = browser.run("({ note: page.noteOf(page.steps[page.at]), reply: page.steps[page.at].reply })")
        assert step["note"] not in said, how
        assert re.search("hidden until|A question: ", browser.run("byId('said').textContent")), how
        assert browser.run("document.querySelector('#look .mbuf-figure, #look .reply, #look .counters') === null"), how


def test_a_hidden_line_leads_to_the_question_and_can_be_shown(at_width):
    browser = at_width(1280)
    opened(browser, "run", "01_a_datagram")
    browser.run("byId('last').click()")
    browser.run("byId('look').querySelector('button.main').click()")
    assert browser.run("page.at === page.firstQuestion && document.activeElement.name") == "guess"
    browser.run("byId('last').click(); byId('look').querySelectorAll('button')[1].click()")
    assert browser.run("[page.firstQuestion, page.at]") == [None, 11]
    assert browser.run("document.querySelector('#look .reply').textContent").startswith("reply stat ip.total=1")


# ---- unfinished datagrams


def fragment(ident):
    """Returns a line with the first 72 bytes of a datagram, which take two mbufs."""
    return f"rx udp 10.0.0.2:5000 > 10.0.0.1:7 @240 id {ident} at 0 more size 72"


WHOLE = 'rx udp 10.0.0.2:5000 > 10.0.0.1:7 "whole"'
SMALL = ["--mbufs 6 --clusters 2", "socket", "bind 3 0.0.0.0 7", fragment(1), fragment(2), WHOLE, WHOLE]


@pytest.mark.parametrize(
    "script, counter, named",
    [
        ([fragment(9), "tick 61"], "ip.fragtimeout", [9]),
        ([fragment(9), fragment(8), "tick 61"], "ip.fragtimeout", [8, 9]),
        ([fragment(9), "tick 5"], None, []),
        (SMALL[:-1], None, []),
        (SMALL, "ip.reclaimed", [1, 2]),
    ],
)
def test_a_datagram_that_is_given_up_is_named(script, counter, named, at_width):
    browser = at_width(1280)
    browser.run(f"open('run', {{ text: {json.dumps(chr(10).join([*script, '']))} }}); byId('last').click()")
    said = browser.run("byId('look').querySelector('.lead').textContent")
    assert counter is None or counter in said
    ends = re.findall(r"10\.0\.0\.2 → 10\.0\.0\.1, identification (\d+): bytes 0 to 71 came\.", said)
    assert sorted(map(int, ends)) == named


# ---- layout

OPTIONS = """[...document.querySelectorAll(".predict input[type=radio]")].map(it => {
    const [own, text] = [it, it.parentElement.lastChild].map(one => {
        const range = document.createRange();
        range.selectNode(one);
        return range.getBoundingClientRect();
    });
    return text.left >= own.right && text.top < own.bottom;
})"""


@pytest.mark.parametrize("width", HEIGHTS)
@pytest.mark.parametrize("mode, name", LESSONS)
def test_an_option_stands_beside_its_radio_button(mode, name, width, at_width):
    browser = at_width(width)
    opened(browser, mode, name)
    browser.run("select(page.firstQuestion)")
    beside = browser.run(OPTIONS)
    assert len(beside) >= 2
    assert all(beside), f"which options are beside their radio buttons: {beside}"


ROWS = """[...new Set([...document.querySelectorAll("header :is(button, .button)")]
    .map(it => Math.round(it.getBoundingClientRect().top)))].length"""


@pytest.mark.parametrize("width", HEIGHTS)
def test_the_buttons_of_the_head_fill_two_rows_at_most(width, at_width):
    browser = at_width(width)
    opened(browser, "run", "01_a_datagram")
    rows, height = browser.run(ROWS), browser.run("document.querySelector('header').offsetHeight")
    assert rows <= 2 and height <= 96, f"the buttons fill {rows} rows, and the head is {height} pixels high"


# ---- what is on the screen without scrolling

# The steps of a script whose figure, or for many hosts whose wire, isn't on the screen with this many pixels. For a
# packet that was dropped the checks and the headers come first.
OFF_SCREEN = """(least => page.steps.flatMap((step, i) => {
    if (page.mode === "run" && step.packet && step.drops.length) return [];
    scrollTo(0, 0);
    stepTo(i);
    const it = document.querySelector("#look .mbuf-figure svg, #look .segment");
    if (!it) return [];
    const { top, bottom } = it.getBoundingClientRect();
    return Math.min(bottom, top + least) <= innerHeight ? [] : [`${page.at + 1}: at ${top} to ${bottom}`];
}))"""
ON_SCREEN = [(1024, 120, *it) for it in LESSONS] + [(DOUBLE, 40, *it) for it in LESSONS if it[0] != "wire"]


@pytest.mark.parametrize("width, least, mode, name", ON_SCREEN)
def test_the_figure_is_on_the_screen_at_each_step(width, least, mode, name, at_width):
    browser = at_width(width)
    opened(browser, mode, name)
    browser.run("revealAll()")
    assert browser.run(f"{OFF_SCREEN}({least})") == []


@pytest.mark.parametrize("mode, name", LESSONS)
def test_on_a_phone_the_line_is_in_the_first_300_pixels(mode, name, at_width):
    browser = at_width(360)
    opened(browser, mode, name)
    for place in ("0", "page.firstQuestion"):
        browser.run(f"select({place}); scrollTo(0, 0)")
        assert browser.run("document.querySelector('#look .lead h3').getBoundingClientRect().bottom") <= 300


def test_on_a_phone_the_lines_are_unfolded_by_a_button_and_a_choice_folds_them(at_width):
    browser = at_width(390)
    opened(browser, "run", "05_fragments_and_a_hole")
    seen = "[byId('rows'), byId('edit')].map(it => it.getClientRects().length)"
    assert browser.run(seen) == [0, 0]
    browser.run("byId('fold').click()")
    assert browser.run(f"[{seen}, byId('fold').getAttribute('aria-expanded')]") == [[1, 1], "true"]
    browser.run("byId('rows').children[3].firstChild.click()")
    assert browser.run(f"[page.at, {seen}, document.activeElement.id]") == [3, [0, 0], "forth"]
    browser.run("seeForms()")
    assert browser.run("byId('script').getClientRects().length") == 1


TWO_COLUMNS = "byId('left').getBoundingClientRect().right <= byId('right').getBoundingClientRect().left"


def test_large_texts_leave_two_columns_on_a_laptop_and_are_kept(page, at_width):
    browser = at_width(1280)
    opened(browser, "run", "05_fragments_and_a_hole")
    sizes = "['.row .what', '.note', '.mbuf-figure figcaption'].map(it => " \
        "parseFloat(getComputedStyle(document.querySelector(it)).fontSize))"
    browser.run("select(3); revealAll()")
    width_of_box = "document.querySelector('.mbuf-figure .box').getBoundingClientRect().width"
    before, wide = browser.run(sizes), browser.run(width_of_box)
    browser.run("byId('size').click()")
    assert browser.run(TWO_COLUMNS)
    assert browser.run(sizes) == pytest.approx([1.25 * it for it in before])
    assert browser.run(width_of_box) == pytest.approx(1.25 * wide, rel=0.02)
    browser.open(page)
    assert browser.run("[document.documentElement.dataset.size, byId('size').ariaPressed]") == ["large", "true"]
    browser.run("byId('size').click()")
    browser.open(page)
    assert browser.run("document.documentElement.dataset.size") == "normal"


@pytest.mark.parametrize("width", [640, 1280])
def test_embedded_in_another_page_it_has_no_head_and_a_link_to_the_whole_page(width, page, at_width):
    browser = at_width(width)
    browser.run("localStorage.clear()")
    browser.open(page, "?embed#mode=run&name=05_fragments_and_a_hole&line=4")
    try:
        hidden = "['header', '#start', '#skip'].map(it => document.querySelector(it).getClientRects().length)"
        assert browser.run(hidden) == [0, 0, 0]
        assert browser.run("[page.known.name, page.at, byId('whole').textContent]") == [
            "05_fragments_and_a_hole", 3, "Whole page"
        ]
        browser.run("byId('forth').click()")
        link = browser.run("byId('whole').href")
        assert link == page.resolve().as_uri() + "#mode=run&name=05_fragments_and_a_hole&line=5"
        assert browser.run("faultsOf(tryLayout)") == []
        assert browser.run("localStorage.getItem('bsdudp.last')") is None
        browser.run("byId('script').value += 'stat'; later(); select(0)")
        assert "#mode=run&line=1&script=" in browser.run("byId('whole').href")
    finally:
        browser.open(page)
    assert browser.run("byId('whole').getClientRects().length") == 0


@pytest.mark.parametrize("width", [1024, 1280])
def test_the_editor_is_wide_enough_for_a_line_with_its_expectation(width, at_width):
    browser = at_width(width)
    line = 'sendto 3 255.255.255.255 520 "all" => error EACCES'
    browser.run(f"open('run', {{ text: {json.dumps(line)} }}); showLeft('edit')")
    assert browser.run("byId('script').scrollWidth <= byId('script').clientWidth") and browser.run(TWO_COLUMNS)


def test_the_opening_text_fills_a_quarter_of_a_laptop_at_most(at_width):
    browser = at_width(1280)
    browser.run("open('run', { name: '01_a_datagram' }); showStart(true)")
    assert browser.run("byId('start').getBoundingClientRect().height") <= HEIGHTS[1280] / 4


OPENED = "open('{}', {{ name: '{}', place: {} }}); revealAll()"
# Views with a selected line, which are printed, too.
LINES = [
    ("run", "05_fragments_and_a_hole", 8),
    ("chain", "03_sharing_without_copying", 6),
    ("run", "07_checksums_and_a_damaged_bit", 4),
    ("run", "11_the_receive_limits", 41),
    ("run", "12_a_connected_socket", 2),
    ("chain", "02_an_mbuf_and_a_cluster", 14),
    ("chain", "04_headers_in_front", 10),
    ("chain", "split_and_join", 6),
    ("wire", "13_a_request_and_its_answer", 8),
    ("wire", "14_fragments_and_one_that_is_lost", 10),
    ("wire", "14_fragments_and_one_that_is_lost", 22),
    ("wire", "15_a_broadcast_on_a_wire", 14),
    ("wire", "16_a_packet_that_waits", 9),
    ("wire", "16_a_packet_that_waits", 12),
]
EXERCISE = "open('run', { name: 'exercise_02_why_dropped', place: 3 })"
WRONG = "open('run', { text: 'sokcet\\nbind 3 localhost 7\\n' })"
VIEWS = {
    "start": "open('run', { name: '01_a_datagram' }); showStart(true)",
    "question": "open('run', { name: '01_a_datagram', place: 2 })",
    "hidden": "open('run', { name: '01_a_datagram', place: 5 })",
    "lines": "open('run', { name: '05_fragments_and_a_hole', place: 8 }); revealAll(); fold(false)",
    "large": "open('run', { name: '05_fragments_and_a_hole', place: 8 }); revealAll(); setSize('large')",
    "editor": "open('run', { name: '01_a_datagram' }); showLeft('edit')",
    "all queues": "open('run', { name: '09_broadcast_to_two', place: 6 }); page.drawsAll = true; revealAll()",
    "exercise": EXERCISE,
    "guess": f"{EXERCISE}; expectHere(2, 'ok'); select(2)",
    "questions": f"{EXERCISE}; select(page.steps.length - 1); askedFor(0, '0'); goOn(); byId('rows').scrollTop = 9999",
    "forms": f"{WRONG}; seeForms()",
    "wrong line": f"{WRONG}; select(0)",
    "make": "open('run', { name: '01_a_datagram' }); byId('make').click()",
    "about": "open('run', { name: '01_a_datagram' }); byId('about').click()",
} | {f"{name}, {place}": OPENED.format(tab, name, place) for tab, name, place in LINES}
# Roles that a screen reader names.
NAMED = {"button", "checkbox", "combobox", "image", "link", "radio", "searchbox", "textbox"}


@pytest.mark.parametrize("theme", ["light", "dark"])
@pytest.mark.parametrize("view", VIEWS)
def test_nothing_overlaps_or_is_cut_off(view, theme, at_width):
    """At each width. Each text has a contrast of at least 4.5."""
    at_width(1280).run(f"showLeft('read'); {VIEWS[view]}; setTheme('{theme}')")
    for width in HEIGHTS:
        assert at_width(width).run("faultsOf(tryLayout)") == [], f"{width} pixels"


@pytest.mark.parametrize("view", VIEWS)
def test_what_takes_input_has_a_name_in_the_accessibility_tree(view, at_width):
    browser = at_width(1280)
    browser.run(f"showLeft('read'); {VIEWS[view]}")
    for node in browser.ask("Accessibility.getFullAXTree")["nodes"]:
        role, name = (node.get(it, {}).get("value", "") for it in ("role", "name"))
        assert node.get("ignored") or role not in NAMED or name.strip(), role


@pytest.mark.parametrize("tab, name, place", LINES)
def test_only_the_selected_line_is_printed(tab, name, place, at_width):
    browser = at_width(1280)
    browser.run(OPENED.format(tab, name, place))
    browser.ask("Emulation.setEmulatedMedia", media="print")
    try:
        assert browser.run("faultsOf(tryPrint)") == []
    finally:
        browser.ask("Emulation.setEmulatedMedia", media="")


def test_scroll_bars_have_a_colour_of_their_own(at_width):
    """By default Firefox draws them white, also in the dark."""
    assert at_width(1280).run("getComputedStyle(byId('rows')).scrollbarColor") != "auto"


# ---- the card at the beginning

FIRST_STEPS = {
    "a choice": "byId('choice').value = 'run/exercise_04_fragments_out';"
    "byId('choice').dispatchEvent(new Event('change'))",
    "a tab": "document.querySelector('[data-tab=chain]').click()",
    "the next lesson": "byId('next-lesson').click()",
    "a step": "byId('forth').click()",
    "a row": "byId('rows').children[1].firstChild.click()",
    "a key": "document.body.dispatchEvent(new KeyboardEvent('keydown', { key: 'ArrowRight', bubbles: true }))",
    "a change": "byId('script').value += 'tick'; byId('script').dispatchEvent(new Event('input'))",
}


@pytest.mark.parametrize("first", FIRST_STEPS)
def test_the_opening_text_closes_at_the_first_choice_or_step(first, at_width):
    browser = at_width(1280)
    browser.run("open('run', { name: '01_a_datagram' }); showStart(true)")
    browser.run(FIRST_STEPS[first])
    assert browser.run("byId('start').hidden")


def test_on_a_phone_nothing_speaks_of_keys(at_width):
    browser = at_width(390)
    browser.run("open('run', { name: '01_a_datagram' }); select(page.firstQuestion); showStart(true)")
    seen = "[...document.querySelectorAll('kbd')].filter(it => it.getClientRects().length).length"
    assert browser.run(seen) > 2
    browser.ask("Emulation.setTouchEmulationEnabled", enabled=True)
    browser.ask("Emulation.setDeviceMetricsOverride", width=390, height=844, deviceScaleFactor=2, mobile=True)
    try:
        assert browser.run(seen) == 0
        assert "Tap › and ‹ to step" in browser.run("byId('start').innerText")
        assert browser.run("faultsOf(tryLayout)") == []
    finally:
        browser.ask("Emulation.setTouchEmulationEnabled", enabled=False)
        at_width(390)


# ---- the checks of a packet


@pytest.mark.parametrize("width", HEIGHTS)
def test_the_check_that_failed_is_one_text(width, at_width):
    """Its rule, its counter and its values follow one another, and aren't columns next to each other."""
    browser = at_width(width)
    browser.run("open('run', { name: '07_checksums_and_a_damaged_bit', place: 4 }); revealAll()")
    said = browser.run("document.querySelector('#look .checks .fail').innerText")
    assert said.endswith("unless the checksum is 0 (udp.badsum): 0x9470 came, and 0x9870 would be right")
    parts = "[...document.querySelector('#look .checks .fail').children].filter(it => !it.matches('.unseen')).length"
    assert browser.run(parts) == 2, "the mark and the text"


# ---- a script without a line


FIRST_LINES = {"run": "socket", "chain": "user 0 6869", "wire": "host a --addr 10.0.0.1"}


@pytest.mark.parametrize("mode, line", FIRST_LINES.items())
def test_without_a_line_nothing_of_the_last_script_is_left(mode, line, at_width):
    browser = at_width(1280)
    browser.run(f"open('run', {{ name: '05_fragments_and_a_hole', place: 8 }}); open('{mode}', {{ text: '' }})")
    assert browser.run("[byId('place').textContent, byId('said').textContent]") == ["", ""]
    said = browser.run("byId('look').innerText")
    assert "no line yet" in said and f"such as {line}." in said
    browser.run(f"byId('script').value = '{line}\\n'; replay(0)")
    assert browser.run("byId('place').textContent") == "1 of 1"
    assert "no line yet" not in browser.run("byId('look').innerText")


# ---- the editor


def test_lines_that_cannot_be_played_are_marked_while_they_are_written(at_width):
    browser = at_width(1280)
    browser.run("openOwn('')")
    lines = ["socket", "bnd 3 0.0.0.0 7", "rx udp 10.0.0.2:5000 > 10.0.0.1:7 hi", "recvfrom 3 100", ""]
    browser.ask("Input.insertText", text="\n".join(lines))
    browser.run("new Promise(done => setTimeout(done, 400))")
    marked = "[...byId('gutter').children].map(it => it.matches('.bad-line'))"
    assert browser.run(marked) == [False, True, True, False]
    colour, other = (
        browser.run(f"getComputedStyle(byId('gutter').children[{n}]).backgroundColor") for n in (1, 3)
    )
    assert colour != other
    assert browser.run("byId('faulty').textContent").startswith("Line 2: unknown command bnd (bind?). 1 more line")
    assert browser.run("faultsOf(tryLayout)") == []
    browser.run("byId('script').value = 'socket\\nbind 3 0.0.0.0 7\\n'; later(); clearTimeout(timer); replay(0)")
    assert browser.run(marked) == [False, False] and not browser.run("byId('faulty').textContent")


# ---- print

LIGHT = "[...getComputedStyle(document.querySelector('{}')).{}.matchAll(/[0-9.]+/g)].map(Number)"


def test_print_is_light_and_has_the_script_with_its_replies(at_width):
    browser = at_width(1280)
    browser.run("open('run', { name: '01_a_datagram', place: 2 }); revealAll(); showLeft('edit'); setTheme('dark')")
    browser.ask("Emulation.setEmulatedMedia", media="print")
    try:
        for what in ("body", ".panel", "#left"):
            back, ink = (browser.run(LIGHT.format(what, of))[:3] for of in ("backgroundColor", "color"))
            assert min(back) > 230 or back == [0, 0, 0], f"{what} is printed on {back}"
            assert max(ink) < 100, f"{what} is printed in {ink}"
        printed = browser.run("byId('rows').innerText")
        for step in browser.run("page.steps.map(it => [it.line, it.says])"):
            assert all(it in printed.replace("\u200b", "") for it in step)
        assert browser.run("byId('rows').scrollHeight === byId('rows').clientHeight")
        buttons = "[...document.querySelectorAll('button:not(.row)')].filter(it => it.getClientRects().length).length"
        assert browser.run(buttons) == 0
    finally:
        browser.ask("Emulation.setEmulatedMedia", media="")
        browser.run("showLeft('read')")


@pytest.mark.parametrize("name", ["01_a_datagram", "exercise_02_why_dropped"])
def test_a_printed_question_has_no_buttons_and_an_exercise_lines_to_write_on(name, at_width):
    browser = at_width(1280)
    browser.run(f"open('run', {{ name: '{name}', place: 2 }}); showLeft('read')")
    browser.ask("Emulation.setEmulatedMedia", media="print")
    try:
        for what in ("button:not(.row)", "kbd"):
            seen = f"[...document.querySelectorAll('{what}')].filter(it => it.getClientRects().length).length"
            assert browser.run(seen) == 0, what
        widths = browser.run("[...document.querySelectorAll('#rows .to-write')].map(it => it.offsetWidth)")
        lines = browser.run("page.steps.length") if name.startswith("exercise") else 0
        assert len(widths) == lines and all(it > 150 for it in widths)
        assert ("a question" in browser.run("byId('rows').innerText")) == (not lines)
    finally:
        browser.ask("Emulation.setEmulatedMedia", media="")


# ---- packets that a capture's host dropped


def test_a_capture_has_counts_per_cause_and_a_way_to_the_next_drop(at_width):
    """A wrong UDP checksum is a drop. One that has only the sum of the pseudo header is left to the sender's card. A
    packet that the snap length cut isn't a drop either."""
    wrong, closed = datagram(b"question", (53, 53)), datagram(b"x", (1, 9))
    wrong = wrong[:30] + b"?" + wrong[31:]
    left, other = left_to_card(datagram(b"b")), left_to_card(datagram(b"c"))
    packets = [datagram(b"a"), left, wrong, other, b"\x65" + closed[1:], wrong]
    data = header() + b"".join(record("<", 100 + n, 0, it) for n, it in enumerate(packets))
    data += record("<", 106, 0, datagram(bytes(100))[:60], original=128)
    browser = at_width(1280)
    letters = f"Uint8Array.from(atob('{base64.b64encode(data).decode()}'), letter => letter.charCodeAt(0))"
    browser.run(f"openFile(new File([{letters}], 'a.pcap'))")
    counts = browser.run("[...byId('drops').querySelectorAll('.cause')].map(it => it.textContent)")
    apart = ["2 checksum left to the card", "1 cut by the capture"]
    assert counts == ["2 wrong datagram checksum", "1 wrong version", *apart]
    numbers = "Number(/^Record (\\d+)/.exec(page.noteOf(page.steps[page.at]))[1])"
    browser.run("select(0)")
    assert [browser.run(f"byId('next-drop').click(); {numbers}") for _ in range(4)] == [3, 5, 6, 3]
    card = "byId('drops').querySelector('.card').click(); "
    assert [browser.run(card + numbers) for _ in range(3)] == [4, 2, 4]
    assert "Left to the card" in browser.run("document.querySelector('#look .verdict.wait').textContent")
    wrong = "#look .verdict.no, #look .checks .fail, [aria-current] .sign-bad"
    assert browser.run(f"document.querySelector('{wrong}') === null")
    assert browser.run("byId('said').textContent").count("Left to the card") == 1
    assert browser.run(f"byId('drops').querySelectorAll('.card')[1].click(); {numbers}") == 7
    assert "Cut by the capture" in browser.run("document.querySelector('#look .verdict.wait').textContent")
    assert browser.run(f"document.querySelector('{wrong}') === null")
    for width in HEIGHTS:
        assert at_width(width).run("faultsOf(tryLayout)") == []
    browser.run("open('run', { name: 'exercise_02_why_dropped' })")
    assert browser.run("byId('drops').hidden")


# ---- statements in docs/page.md


def test_the_page_is_as_large_as_its_document_says(page):
    text = (TOP / "docs/page.md").read_text(encoding="utf-8")
    said = re.findall(r"one file of less than (\d+) MB", text)
    assert len(said) == 1, "docs/page.md doesn't say how large the page is: `one file of less than N MB`"
    assert page.stat().st_size < int(said[0]) * 1_000_000, "the page is larger than docs/page.md says"
