"""The Python package with the library that capi/build makes. The package loads the library when it's imported, so tests
import it from tests.python.package, which delays that until a test uses it."""
import pytest

from tests.capi.conftest import library  # noqa: F401 (a fixture)
from tests.cases import TOP


@pytest.fixture(autouse=True)
def package(library, monkeypatch):  # noqa: F811
    """Sets the paths by which this process, and those that it starts, find the package, its library and these tests."""
    monkeypatch.setenv("BSDUDP_LIBRARY", str(library.folder / "libbsdudp.so.0"))
    monkeypatch.setenv("PYTHONPATH", f"{TOP}:{TOP / 'python'}")
    monkeypatch.setenv("PYTHONDONTWRITEBYTECODE", "1")
