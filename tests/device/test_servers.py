"""The servers of CoAP and TFTP without a network: tests/device/servers.c; and the device's other parts:
tests/device/parts.c."""
import pytest

from tests.cases import TOP
from tests.made import made

EXAMPLES = TOP / "capi/examples"
PROGRAMS = {"servers": ["coap", "tftp"], "parts": ["dhcp", "dhcp_message", "drops"]}


@pytest.mark.needs("cc", "asan")
@pytest.mark.parametrize("name", PROGRAMS)
def test_without_a_network(name, library, tmp_path):
    words = ["-std=c99", "-Wall", "-Wextra", "-Werror", "-pedantic", "-Wsign-conversion", "-g", f"-I{TOP}/capi/include"]
    words += [f"-I{EXAMPLES}", "-fsanitize=address,undefined", "-fno-sanitize-recover=all"]
    sources = [TOP / f"tests/device/{name}.c", *(EXAMPLES / f"{it}.c" for it in PROGRAMS[name])]
    made("cc", *words, *sources, library.archive, "-o", tmp_path / name)
    made(tmp_path / name)
