"""The archive for users without the toolchain. Two builds are identical, each file matches SHA256SUMS, and no link is
dead. It's installed into an empty folder, and tested there without the toolchain on the path."""
import hashlib
import pathlib
import re
import subprocess

import pytest

from tests.cases import TOP
from tests.packages.conftest import left_out
from tools import built, crates

pytestmark = [pytest.mark.slow, pytest.mark.xdist_group("dist")]
BARE = {"PATH": "/usr/bin:/bin"}
OF_PROOFS = "CHANGELOG.md", "proved.md"
OF_RT = re.compile(r"(?m)`(cd [^`]* && )?rt \w|^    .*\brt (try|run|ci|check)\b")


def passed(*words, **how):
    """Returns a command's output without the toolchain on the path. If it fails, the test fails with its errors."""
    how = {"env": BARE, "cwd": TOP, **how}
    done = subprocess.run([*map(str, words)], capture_output=True, text=True, check=False, **how)
    if done.returncode:
        pytest.fail(f"{words[0]}: status {done.returncode}: {(done.stdout + done.stderr)[-1500:]}", pytrace=False)
    return done.stdout


@pytest.fixture(scope="session")
def archive(all_made, once):
    def make(folder):
        subprocess.run([TOP / "dist/build", *left_out("page", "boards", "portable"), folder], check=True)

    (made,) = once("archive", make).glob("bsdudp-*.tar.gz")
    return made


@pytest.fixture(scope="session")
def unpacked(archive, once):
    def make(folder):
        passed("tar", "-xzf", archive, "-C", folder)

    return once("unpacked", make) / archive.name.removesuffix(".tar.gz")


@pytest.fixture(scope="session")
def prefix(unpacked, once):
    """The folder in which it's installed."""

    def make(folder):
        environment = {**BARE, "HOME": str(folder)}
        subprocess.run([unpacked / "install", folder], env=environment, stdout=subprocess.DEVNULL, check=True)

    return once("dist-prefix", make)


def test_two_are_the_same(archive, tmp_path):
    subprocess.run([TOP / "dist/build", *left_out("page", "boards", "portable"), tmp_path], check=True)
    assert (tmp_path / archive.name).read_bytes() == archive.read_bytes()


def test_versions_agree(archive, unpacked):
    """The archive and the wheel have the mark of an unreleased version, each in its form (PEP 440)."""
    (wheel,) = (unpacked / "share/bsdudp").glob("*.whl")
    version = built.package_version()
    assert archive.name == f"bsdudp-{version}-linux-x86_64.tar.gz"
    assert wheel.name.split("-")[1] == version.replace("~dev", ".dev0")


def test_licences(unpacked):
    """Each library of the toolchain in crates.txt is named with its licence, or that it has none."""
    text = (unpacked / "share/doc/bsdudp/LICENSES-LINKED").read_text(encoding="utf-8")
    named = {it for line in re.findall(r"(?m)^---- (.*)$", text) for it in line.split(", ")}
    uses = crates.uses()
    assert {it for used in uses.values() for it in used if it not in uses} <= named
    assert "Permission is hereby granted" in text


def test_sums(unpacked):
    """SHA256SUMS has each file."""
    lines = (unpacked / "SHA256SUMS").read_text(encoding="utf-8").splitlines()
    listed = {name: total for total, name in (it.split("  ", 1) for it in lines)}
    files = {str(it.relative_to(unpacked)): it for it in unpacked.rglob("*") if it.is_file()}
    del files["SHA256SUMS"]
    assert {name: hashlib.sha256(it.read_bytes()).hexdigest() for name, it in files.items()} == listed


def test_pages(unpacked):
    """No link on a page is dead, and no page names the toolchain's command but the one on how proofs are checked."""
    faults = []
    for page in sorted((unpacked / "share/doc/bsdudp").rglob("*.md")):
        text = page.read_text(encoding="utf-8")
        links = re.findall(r"\]\((?!\w+:|#)([^)#\s]+)", text)
        faults += [f"{page.name} leads to {it}, which isn't there" for it in links if not (page.parent / it).exists()]
        faults += [f"{page.name} speaks of rt"] * bool(page.name not in OF_PROOFS and OF_RT.search(text))
    assert not faults


def test_first_example(prefix):
    script = prefix / "share/doc/bsdudp/examples/first_datagram.txt"
    told = passed(prefix / "bin/bsdudp", "run", input=script.read_text(encoding="utf-8"))
    assert told == pathlib.Path(f"{script}.stdout").read_text(encoding="utf-8")


def test_first_script_for_people(prefix):
    passed(prefix / "bin/bsdplay", "--quiet", prefix / "share/doc/bsdudp/examples/play/first_datagram.txt")


@pytest.mark.needs("rt", "wasm-opt", "wasm2c", "cc")
def test_portable_c(unpacked, tmp_path):
    """It compiles in its folder with only its header."""
    words = ["cc", "-std=c99", "-Wall", "-Werror", "-c", "bsdudp_portable.c", "-o", tmp_path / "portable.o"]
    passed(*words, cwd=unpacked / "share/bsdudp")


@pytest.mark.needs("rt", "wasm-opt", "arm-none-eabi")
def test_program_of_a_board(unpacked, tmp_path):
    passed("portable/board/build", unpacked / "lib/bsdudp/cortex-m3", tmp_path)


@pytest.mark.needs("cc", "pkg-config")
def test_c_library(prefix, tmp_path):
    """libbsdudp.so is a link, and a program is built with pkg-config and run."""
    environment = {**BARE, "PKG_CONFIG_PATH": f"{prefix}/lib/pkgconfig", "LD_RUN_PATH": f"{prefix}/lib"}
    flags = passed("pkg-config", "--cflags", "--libs", "bsdudp", env=environment).split()
    passed("cc", "-std=c99", "capi/examples/wire.c", *flags, "-o", tmp_path / "wire", env=environment)
    passed(tmp_path / "wire")


def test_remove(unpacked, tmp_path):
    """The command of the archive's README removes what `install` copied, and nothing else."""
    (tmp_path / "share").mkdir()
    (tmp_path / "share/mine").write_text("mine")
    passed(unpacked / "install", tmp_path, env={**BARE, "HOME": str(tmp_path)})
    readme = (unpacked / "README.md").read_text(encoding="utf-8")
    command = re.search(r"(?m)^    (.*xargs.*)$", readme)[1].replace("~/.local", str(tmp_path))
    passed("bash", "-euc", command)
    assert sorted(tmp_path.rglob("*")) == [tmp_path / "share", tmp_path / "share/mine"]


def test_judge(prefix):
    """The installed judge makes its cases."""
    assert len(passed(prefix / "bin/bsdudp-conform", "run", "--list", "--only", "ip.version").splitlines()) == 15


@pytest.mark.needs("venv")
def test_wheel(unpacked, tmp_path):
    """pip installs it in an empty environment from the file, without an index, and the page's first program runs."""
    page = (unpacked / "share/doc/bsdudp/docs/python.md").read_text(encoding="utf-8")
    (tmp_path / "first.py").write_text(re.search(r"(?s)```python\n(.*?)```", page)[1], encoding="utf-8")
    (wheel,) = (unpacked / "share/bsdudp").glob("*.whl")
    pip = [tmp_path / "venv/bin/pip", "install", "--quiet", "--no-index", "--disable-pip-version-check"]
    passed("/usr/bin/python3", "-m", "venv", tmp_path / "venv")
    passed(*pip, wheel, env={})
    said = passed(tmp_path / "venv/bin/python", "-I", tmp_path / "first.py", env={})
    assert said.splitlines()[-1] == "(b'hi', ('10.0.0.1', 1024))"
