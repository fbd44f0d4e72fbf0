"""Exercises and questions in Chromium: the bytes that a student works with, the keys, and a check without an answer."""
import json
import re

import pytest

from tests.cases import TOP

pytestmark = [pytest.mark.needs("rt", "wasm-opt", "chromium"), pytest.mark.slow]

EXERCISES = sorted((it.parent.name, it.stem) for it in (TOP / "examples/play").rglob("exercise_*.txt"))
MODES = {"play": "run", "wire": "wire", "ether": "wire"}


def lines_of(folder, name):
    """Returns the lines of an exercise with the packets that arrive, from its file."""
    here = TOP / "examples/play" / (name + ".txt" if folder == "play" else f"{folder}/{name}.txt")
    asked = [it.partition("=>")[0].strip() for it in here.read_text(encoding="utf-8").splitlines()]
    return [it for it in asked if re.match(r"(\w+: )?rx ", it)]


@pytest.mark.parametrize("width", [390, 1280])
@pytest.mark.parametrize("folder, name", EXERCISES)
def test_an_exercise_shows_the_bytes_of_its_packets(folder, name, width, at_width):
    """In the row and in the card, before an answer. Both have as many digits as the file has."""
    browser = at_width(width)
    browser.run(f"open({json.dumps(MODES[folder])}, {{ name: {json.dumps(name)} }})")
    for line in lines_of(folder, name):
        place = browser.run(f"page.steps.findIndex(it => it.line === {json.dumps(line)})")
        browser.run(f"select({place})")
        row, card = browser.run(
            f"[byId('rows').children[{place}].querySelector('.asked'), byId('look')].map(it => it.textContent)"
        )
        digits = re.fullmatch(r"rx ([0-9a-f]{16,})", line)
        assert row == line
        if digits:
            shown = browser.run("[...byId('look').querySelectorAll('.byte')].map(it => it.textContent)")
            assert "".join(shown) == digits[1]
        else:
            assert line in card
        assert browser.run("faultsOf(tryLayout)") == []


def test_bytes_in_a_question_do_not_name_their_fields(at_width):
    browser = at_width(1280)
    browser.run("open('run', { name: 'exercise_02_why_dropped', place: 2 })")
    assert browser.run("document.querySelectorAll('#look .byte').length") == 30
    assert browser.run("document.querySelector('#look [title], #look .rfc') === null")


# ---- which bytes win

OVERLAP = """socket
bind 3 0.0.0.0 7
rx udp 10.0.0.2:5000 > 10.0.0.1:7 "a"*40 nosum id 9 at 0 more size 24
rx udp 10.0.0.2:5000 > 10.0.0.1:7 "c"*40 nosum id 9 at 32 last
rx udp 10.0.0.2:5000 > 10.0.0.1:7 "b"*40 nosum id 9 at 16 more size 24
recvfrom 3 100
"""


def test_rows_and_figures_show_which_bytes_win(at_width):
    """The fragment that begins first keeps its bytes (RFC 791 leaves it open; docs/behaviour.md, Fragments)."""
    browser = at_width(1280)
    browser.run(f"open('run', {{ text: {json.dumps(OVERLAP)}, place: 3 }})")
    rows = [browser.run(f"byId('rows').children[{n}].textContent") for n in range(6)]
    assert "bytes 0 to 23 (UDP header, a×16)" in rows[2]
    assert "bytes 32 to 47 (c×16)" in rows[3] and "bytes 16 to 39 (b×24)" in rows[4]
    assert "from 10.0.0.2 5000 a×16 b×16 c×8" in rows[5]
    assert re.search("a×16", browser.run("document.querySelector('#look .mbuf-figure').textContent"))
    browser.run("select(4)")
    figure = browser.run("document.querySelector('#look .mbuf-figure').textContent")
    assert all(it in figure for it in ("a×16", "b×16", "c×8"))
    browser.run("select(5)")
    assert "Read: a×16 b×16 c×8" in browser.run("byId('look').textContent")


@pytest.mark.parametrize(
    "text, is_cut, runs",
    [
        ("a" * 16 + "b" * 16 + "c" * 8, False, "a×16 b×16 c×8"),
        ("hello", False, None),
        ("hiaaaab", False, "hi a×4 b"),
        ("\0" * 20, False, "0x00×20"),
        ("a" * 1400, False, "a×1,400"),
        ("a" * 32, True, None),
        ("a" * 16 + "b" * 16, True, "a×16 b…"),
        ("", False, None),
    ],
)
def test_runs_of_bytes(text, is_cut, runs, at_width):
    bytes_of = json.dumps(list(text.encode("latin-1")))
    assert at_width(1280).run(f"runsOf(Uint8Array.from({bytes_of}), 24, {json.dumps(is_cut)})") == runs


# ---- answers


def test_digits_choose_an_answer_and_enter_checks_it(at_width):
    browser = at_width(1280)
    browser.run("open('run', { name: '01_a_datagram' }); select(page.firstQuestion)")
    browser.run("byId('rows').children[page.at].firstChild.focus()")
    right = browser.run("page.notes.questions[page.at].answers.findIndex(it => it.isRight)") + 1
    browser.press(str(right % 2 + 1))
    assert browser.run("document.querySelector('.predict :checked').value") == str(right % 2)
    browser.press(str(right))
    assert browser.run("document.querySelector('.predict :checked').value") == str(right - 1)
    browser.press("Enter")
    assert browser.run("document.querySelector('#look .verdict.yes b').textContent") == "Right: "


def test_keys_after_a_choice_from_the_list_are_for_the_script(at_width):
    """Up and down stay the list's."""
    browser = at_width(1280)
    browser.run("open('run', { name: '01_a_datagram' }); byId('choice').focus()")
    for name in ("ArrowRight", "ArrowRight", "ArrowLeft"):
        browser.press(name)
    assert browser.run("[byId('choice').value, page.at]") == ["run/01_a_datagram", 1]
    browser.run("select(page.firstQuestion); byId('choice').focus()")
    browser.press("2")
    assert browser.run("[byId('choice').value, document.querySelector('.predict :checked').value]") == [
        "run/01_a_datagram", "1"
    ]  # fmt: skip
    browser.run("byId('choice').focus()")
    browser.press("ArrowDown")
    assert browser.run("byId('choice').value") == "chain/02_an_mbuf_and_a_cluster"


def test_a_digit_in_a_field_is_text(at_width):
    browser = at_width(1280)
    browser.run("open('run', { name: 'exercise_01_which_socket' })")
    browser.run("byId('look').querySelector('.predict input').focus()")
    browser.press("1")
    assert browser.run("document.activeElement.value") == "1"


def test_enter_on_the_chosen_row_leads_to_its_question(at_width):
    browser = at_width(1280)
    browser.run("open('run', { name: 'exercise_01_which_socket', place: 1 })")
    browser.run("byId('rows').children[1].firstChild.focus()")
    browser.press("Enter")
    assert browser.run("document.activeElement.name") == "guess"


@pytest.mark.parametrize(
    "name, hint",
    [
        ("01_a_datagram", "Choose an answer first."),
        ("exercise_01_which_socket", "First write the reply that you expect."),
    ],
)
def test_a_check_without_an_answer_says_so(name, hint, at_width):
    browser = at_width(1280)
    browser.run(f"open('run', {{ name: '{name}' }}); select(page.firstQuestion)")
    assert browser.run("document.querySelector('.predict [role=alert]').getClientRects().length") == 0
    browser.run("document.querySelector('.predict .main').click()")
    seen = "[...document.querySelectorAll('.predict [role=alert]')].filter(it => it.getClientRects().length)"
    assert browser.run(f"{seen}.map(it => it.textContent)") == [hint] and browser.run("questionOf(page.at) !== null")


@pytest.mark.parametrize(
    "guess, said",
    [
        ("3 packets ..", "It comes. The key wants the whole reply: 2 words of 7 are right here."),
        ("3 packets the next of 572 bytes.", "As expected."),
        ("2 packets ..", "Expected: 2 packets ..; “3” is right, not “2”."),
        ("3 packets", "Expected: 3 packets; “the” is missing."),
        ("3 packets, the next of 572 bytes each", "“each” is extra."),
    ],
)
def test_a_guess_is_judged_by_its_words(guess, said, at_width):
    """`show queue` replies `3 packets, the next of 572 bytes`. A mark of punctuation isn't compared."""
    browser = at_width(1280)
    browser.run("anew()" if browser.run("isExercise()") else "0")
    browser.run("open('run', { name: 'exercise_04_fragments_out' })")
    place = browser.run("page.steps.findIndex(it => it.line === 'show queue')")
    browser.run(f"expectHere({place}, {json.dumps(guess)}); select({place})")
    assert said in browser.run("byId('look').querySelector('.lead').textContent")


@pytest.mark.parametrize(
    "guess, said",
    [
        ("from ..", "It comes. The key wants the whole reply: 1 word of 4 is right here."),
        ("from 10.0.0.2 5000 ..", "It comes. The key wants the whole reply: 3 words of 4 are right here."),
        ('from 10.0.0.2 5000 "a"', "As expected."),
        ("from 10.0.0.2 5000 61", "As expected."),
    ],
)
def test_a_guess_that_leaves_out_words_is_told_how_many_are_right(guess, said, at_width):
    """The key expects `from 10.0.0.2 5000 "a"`, and `..` doesn't count as an answer (docs/teaching.md, Grading)."""
    browser = at_width(1280)
    browser.run("open('run', { name: 'exercise_01_which_socket' }); anew()")
    place = browser.run("page.steps.findIndex(it => it.line === 'recvfrom 5 100')")
    browser.run(f"expectHere({place}, {json.dumps(guess)}); select({place})")
    assert said in browser.run("byId('look').querySelector('.lead').textContent")
    is_all = said == "As expected."
    assert ("✓ in part" in browser.run(f"byId('rows').children[{place}].textContent")) is not is_all
    assert ("1 right, 0 wrong" in browser.run("byId('score').textContent")) is is_all
