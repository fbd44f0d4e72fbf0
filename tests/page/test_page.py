"""The page plays each example and each lesson: its module in node, which also plays random scripts and compares them
with the programs, and the whole page in Chromium, where each line is looked at, too."""
import json
import pathlib
import subprocess

import pytest

from tests.cases import TOP

pytestmark = [pytest.mark.slow, pytest.mark.needs("rt", "wasm-opt")]
EXAMPLES, LESSONS = TOP / "examples", TOP / "page/lessons"
# Scripts that name a file, and those that have wrong lines.
OTHERS = ["borders.txt", "bytes.txt", "other_line_ends.txt", "played_in.txt"]
FOLDERS = [("chain", EXAMPLES / "chain"), ("run", EXAMPLES / "play"), ("wire", EXAMPLES / "play/wire")]
FOLDERS += [("wire", EXAMPLES / "play/ether"), *((tab, LESSONS / tab) for tab in ("run", "chain", "wire"))]
# Each script with its tab.
SCRIPTS = [(tab, it) for tab, folder in FOLDERS for it in sorted(folder.glob("*.txt")) if it.name not in OTHERS]


@pytest.mark.needs("node")
def test_module_in_node(page, bsdudp, bsdplay):
    words = ["node", "page/test/replies.js", page.with_name("page.wasm"), EXAMPLES, LESSONS, bsdudp, bsdplay]
    done = subprocess.run([*map(str, words)], cwd=TOP, capture_output=True, text=True, check=False)
    said = (done.stdout + done.stderr).strip()
    if done.returncode or said:
        pytest.fail(f"status {done.returncode}\n{said[-3000:]}", pytrace=False)


@pytest.mark.needs("chromium")
@pytest.mark.parametrize("tab, script", SCRIPTS, ids=[f"{it.parent.name}/{it.stem}" for _, it in SCRIPTS])
def test_script_in_chromium(tab, script, chromium):
    """What it expects comes, and its lines are shown. That the module replies as its file says is tested in node."""
    options = pathlib.Path(f"{script}.args")
    words = options.read_text(encoding="utf-8").split() if options.exists() else []
    asked = [tab, script.read_text(encoding="utf-8"), words, LESSONS in script.parents]
    assert chromium.resize(1600).run(f"faultsOf(tryScript, ...{json.dumps(asked)})") == []
