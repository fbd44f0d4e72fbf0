"""The wheel: two builds are identical. tests/packages/test_dist.py installs it in an empty environment."""
import subprocess

from tests.cases import TOP


def wheel(library, folder):
    """Returns the wheel that dist/wheel makes in a folder."""
    subprocess.run([TOP / "dist/wheel", library.folder / "libbsdudp.so.0", folder], capture_output=True, check=True)
    (made,) = folder.glob("*.whl")
    return made


def test_two_are_the_same(library, tmp_path):
    once, twice = (wheel(library, tmp_path / it) for it in ("once", "twice"))
    assert (once.name, once.read_bytes()) == (twice.name, twice.read_bytes())
