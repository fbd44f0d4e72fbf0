"""The adapter templates compile without a warning. If nothing is filled in, the judge reports what is missing."""
import re
import subprocess
import sys

import pytest

TOLD = re.compile(r"(?m)my stack 1\.0: 533 cases, 533 deviate, by 1 cause$")


@pytest.mark.slow
@pytest.mark.parametrize(
    "words",
    [
        pytest.param(["cc", "-std=c99", "-Wextra"], id="C99", marks=pytest.mark.needs("cc")),
        pytest.param(["c++", "-std=c++17", "-x", "c++"], id="C++", marks=pytest.mark.needs("c++")),
        pytest.param([], id="Python"),
    ],
)
def test_template(words, conform, judged, tmp_path):
    folder = tmp_path / "new"
    status, said = conform(sys.executable, "-m", "bsdudp_conform", "template", folder)
    assert status == 0, said
    adapter = [sys.executable, folder / "template.py"]
    if words:
        strict = ["-Wall", "-Werror", "-Wno-unused-function", f"-I{folder}"]
        done = subprocess.run(
            [*words, *strict, folder / "template.c", "-o", folder / "adapter"],
            capture_output=True, text=True, check=False,
        )  # fmt: skip
        assert done.returncode == 0 and not done.stderr, done.stderr[:2000]
        adapter = [folder / "adapter"]
    status, said = judged("--only", "udp.data", "--", *adapter)
    assert status == 1 and TOLD.search(said), said[-1500:]


def test_a_changed_template_is_kept(conform, tmp_path):
    """A second `template` writes nothing if one of the files was changed, and the same files otherwise."""
    folder = tmp_path / "mine"
    command = (sys.executable, "-m", "bsdudp_conform", "template", folder)
    assert [conform(*command)[0] for _ in range(2)] == [0, 0]
    filled_in = folder / "template.c"
    filled_in.write_text("int main(void) { return 0; }\n", encoding="utf-8")
    (folder / "kit.h").unlink()
    status, said = conform(*command)
    assert (status, said) == (2, f"bsdudp-conform: {filled_in} exists with other contents: choose another folder\n")
    assert filled_in.read_text(encoding="utf-8") == "int main(void) { return 0; }\n"
    assert sorted(it.name for it in folder.iterdir()) == ["template.c", "template.py"]
