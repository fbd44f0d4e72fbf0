"""Your own scripts on the page, in Chromium: none is lost by a change of a lesson, by a file, a link or a reload."""
import base64
import json

import pytest

from tests.packets import datagram
from tests.pcaps import header, record

pytestmark = [pytest.mark.needs("rt", "wasm-opt", "chromium"), pytest.mark.slow]

MINE = "socket\nbind 3 0.0.0.0 7\n"
CAPTURE = header() + record("<", 100, 0, datagram(b"hi"))


@pytest.fixture(name="browser")
def at_beginning(chromium):
    """The page without anything of yours."""
    chromium.run("localStorage.clear(); unstored.clear(); page.mine = null; openNamed(LISTS.lessons[0])")
    return chromium


def reload(browser):
    """Loads the page again, with what the browser keeps."""
    browser.run("globalThis.isOld = true")
    browser.ask("Page.reload")
    for _ in range(200):
        try:
            if browser.run("!globalThis.isOld && Boolean(document.body && document.body.dataset.ready)"):
                return
        except RuntimeError:
            pass
    raise AssertionError("the page isn't loaded again")


def write(browser, text):
    """Writes a script of yours, as a user does."""
    browser.run(f"openOwn(''); byId('script').value = {json.dumps(text)}; later(); clearTimeout(timer); replay(0)")


def type_at_end(browser, text):
    browser.run("showLeft('edit'); byId('script').focus(); byId('script').setSelectionRange(1e6, 1e6)")
    browser.ask("Input.insertText", text=text)


def names(browser):
    return browser.run("[...byId('choice').querySelector('optgroup').children].map(it => it.textContent)")


def choose(browser, name):
    """Chooses a script of yours from the list."""
    browser.run(
        f"byId('choice').value = {json.dumps('own/' + name)}; byId('choice').dispatchEvent(new Event('change'))"
    )
    return browser.run("byId('script').value")


def open_file(browser, name, data):
    encoded = base64.b64encode(data).decode()
    letters = f"Uint8Array.from(atob('{encoded}'), letter => letter.charCodeAt(0))"
    browser.run(f"openFile(new File([{letters}], {json.dumps(name)}))")


def follow(browser, link):
    """Follows a link into the page that is open."""
    browser.run(f"location.hash = {json.dumps(link)}; new Promise(done => setTimeout(done, 50))")


def test_a_lesson_that_is_changed_becomes_a_copy(browser):
    lesson = browser.run("byId('script').value")
    type_at_end(browser, "tick 3\n")
    assert browser.run("byId('head-script').textContent") == "Lesson 1, changed"
    assert names(browser)[0] == "Lesson 1, changed"
    browser.run("openNamed(LISTS.lessons[0])")
    assert browser.run("byId('script').value") == lesson
    assert choose(browser, "Lesson 1, changed") == lesson + "tick 3\n"
    browser.run("openNamed(LISTS.lessons[0]); openOwn()")
    assert browser.run("byId('script').value") == lesson + "tick 3\n"


def test_a_lesson_that_is_changed_twice_has_two_copies(browser):
    for line in ("tick 1\n", "tick 2\n"):
        browser.run("openNamed(LISTS.lessons[0])")
        type_at_end(browser, line)
    assert names(browser)[:2] == ["Lesson 1, changed", "Lesson 1, changed 2"]
    assert choose(browser, "Lesson 1, changed").endswith("tick 1\n")


def test_a_packet_or_a_line_that_is_inserted_makes_a_copy_too(browser):
    write(browser, MINE)
    browser.run("openNamed(LISTS.lessons[0]); byId('make').click(); putPacket()")
    assert names(browser)[:2] == ["Your script", "Lesson 1, changed"]
    browser.run("open('wire', { name: '13_a_request_and_its_answer', place: 6 }); byId('put-carry').click()")
    assert "Lesson 13, changed" in names(browser)
    assert choose(browser, "Your script") == MINE


@pytest.mark.parametrize(
    "how",
    [
        lambda it: open_file(it, "veth.pcap", CAPTURE),
        lambda it: open_file(it, "other.txt", b"socket\nclose 3\n"),
        lambda it: follow(it, "script=tick%0A"),
    ],
    ids=["a capture", "a text file", "a link"],
)
def test_a_file_or_a_link_leaves_your_script_in_the_list(how, browser):
    write(browser, MINE)
    how(browser)
    assert browser.run("byId('script').value") != MINE
    assert browser.run("byId('left-there').textContent") == "“Your script” is in the list, under “Yours”."
    assert choose(browser, "Your script") == MINE
    browser.run("history.replaceState(null, '', location.href.split('#')[0])")


def test_a_second_file_of_a_name_replaces_no_other(browser):
    open_file(browser, "a.txt", b"socket\n")
    open_file(browser, "a.txt", b"tick\n")
    open_file(browser, "a.txt", b"socket\n")
    assert names(browser)[:2] == ["a", "a 2"]
    assert choose(browser, "a") == "socket\n" and choose(browser, "a 2") == "tick\n"


def test_a_reload_restores_what_was_typed(browser):
    """Also what was typed just before, and a lesson that was changed."""
    type_at_end(browser, "tick 3\n")
    text = browser.run("byId('script').value")
    reload(browser)
    assert browser.run("byId('script').value") == text and text.endswith("tick 3\n")
    assert browser.run("byId('head-script').textContent") == "Lesson 1, changed"


def test_a_reload_restores_a_change_of_a_link(browser):
    follow(browser, "script=socket%0A")
    type_at_end(browser, "tick\n")
    reload(browser)
    assert browser.run("byId('script').value") == "socket\ntick\n"


def test_a_script_that_an_earlier_page_kept_is_restored(browser):
    old = {"mode": "run", "text": MINE, "options": {}}
    browser.run("localStorage.clear()")
    browser.run(f"localStorage.setItem('bsdudp.own', {json.dumps(json.dumps(old))})")
    browser.run("localStorage.setItem('bsdudp.last', '{\"mode\":\"run\",\"name\":\"\"}')")
    reload(browser)
    assert browser.run("byId('script').value") == MINE and names(browser)[0] == "Your script"


NO_STORE = """globalThis.store = Object.getOwnPropertyDescriptor(globalThis, 'localStorage');
    Object.defineProperty(globalThis, 'localStorage', { configurable: true, get() { throw new Error('none'); } }); 0"""
STORE = "Object.defineProperty(globalThis, 'localStorage', store); localStorage.clear(); unstored.clear()"


def test_without_storage_scripts_are_kept_until_the_page_is_left(browser):
    browser.run(NO_STORE)
    write(browser, MINE)
    open_file(browser, "veth.pcap", CAPTURE)
    assert browser.run("byId('unstored').getClientRects().length") == 1
    assert choose(browser, "Your script") == MINE
    leaves = "dispatchEvent(new Event('beforeunload', { cancelable: true }))"
    assert not browser.run(leaves), "the page is left without a question"
    browser.run(STORE)
    assert browser.run(leaves)
    write(browser, MINE)
    assert browser.run("byId('unstored').getClientRects().length") == 0


def test_a_full_storage_is_said_and_leaves_no_name_without_a_script(browser):
    write(browser, MINE)
    fill = "try { localStorage.setItem(n, 'x'.repeat(n)); } catch (it) { continue; }"
    browser.run(f"for (let n = 1 << 22; n > 4096; n >>= 1) {{ {fill} }}")
    long = "# a long comment\n" * 5000
    browser.run(f"openOwn(''); byId('script').value = {json.dumps(long)}; later(); clearTimeout(timer); replay(0)")
    assert browser.run("byId('unstored').getClientRects().length") == 1
    assert choose(browser, "Your script") == MINE and choose(browser, "Your script 2") == long
    browser.run("unstored.clear()")
    reload(browser)
    assert names(browser) == ["Your script", "a new script"]
    browser.run("localStorage.clear()")


def test_a_script_that_two_windows_change_becomes_two(browser):
    write(browser, MINE)
    other = json.dumps({"mode": "run", "text": "tick\n", "options": {}})
    browser.run(f"localStorage.setItem('bsdudp.script.Your script', {json.dumps(other)})")
    type_at_end(browser, "close 3\n")
    assert browser.run("byId('head-script').textContent") == "Your script 2"
    assert choose(browser, "Your script") == "tick\n"
    assert choose(browser, "Your script 2") == MINE + "close 3\n"


def pressed(browser, button):
    browser.run(f"byId('{button}').click()")
    return browser.run("byId('asks').open")


def test_a_script_is_deleted_only_after_a_question(browser):
    write(browser, MINE)
    browser.run("byId('forget').click()")
    assert browser.run("byId('asks').open") and not pressed(browser, "asks-no")
    assert choose(browser, "Your script") == MINE
    browser.run("byId('forget').click()")
    assert not pressed(browser, "asks-yes")
    browser.run("new Promise(done => setTimeout(done, 20))")
    assert names(browser) == ["a new script"] and not browser.run("page.mine")


def test_an_exercise_begins_again_only_after_a_question(browser):
    browser.run("open('run', { name: 'exercise_01_which_socket' }); expectHere(0, 'ok 3')")
    begun = browser.run("byId('script').value")
    browser.run("byId('score').querySelector('button').click(); byId('asks-no').click()")
    assert browser.run("byId('script').value") == begun
    browser.run("byId('score').querySelector('button').click(); byId('asks-yes').click()")
    browser.run("new Promise(done => setTimeout(done, 20))")
    assert "=>" not in browser.run("byId('script').value")


def test_a_saved_exercise_replaces_one_that_was_begun_only_after_a_question(browser):
    browser.run("open('run', { name: 'exercise_01_which_socket' }); expectHere(0, 'ok 3')")
    begun = browser.run("byId('script').value")
    saved = begun.replace("=> ok 3", "=> ok 4")
    answer = "setTimeout(() => byId('asks-{}').click(), 50)"
    for word, text in (("no", begun), ("yes", saved)):
        browser.run(answer.format(word))
        open_file(browser, "exercise_01_which_socket.txt", saved.encode())
        assert browser.run("byId('script').value") == text
