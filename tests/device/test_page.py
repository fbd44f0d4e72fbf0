"""The commands in docs/device.md, as a reader types them, and the memory in its table."""
import pathlib
import re
import shutil
import subprocess
import textwrap

import pytest

from tests.cases import TOP

pytestmark = [pytest.mark.slow, pytest.mark.needs("netns", "tun", "ip", "cc", "coap-client", "curl")]
PAGE = (TOP / "docs/device.md").read_text(encoding="utf-8")


def block(first):
    """Returns the commands of the page from this one to the end of its block."""
    return textwrap.dedent(re.search(rf"(?ms)^    {re.escape(first)}.*?\n(?=\n)", PAGE)[0])


def shell(commands, folder, *program):
    # What runs in the background would otherwise keep the pipe open when a command fails.
    commands = f"trap 'kill $(jobs -p) 2> /dev/null || true' EXIT\n{commands}"
    done = subprocess.run(
        [*program, "bash", "-e"], input=commands, cwd=folder, capture_output=True, text=True, check=False, timeout=120
    )
    assert done.returncode == 0, f"{commands}: {done.stdout[-800:]}{done.stderr[-800:]}"
    return done.stdout


@pytest.fixture
def folder(tmp_path):
    """A copy of the top of the repository, so that what is built there isn't kept."""
    for it in ("portable", "tools", "LICENSE"):
        (tmp_path / it).symlink_to(TOP / it)
    for it in ("capi/examples", "capi/include"):
        shutil.copytree(TOP / it, tmp_path / it)
    return tmp_path


@pytest.mark.needs("rt", "wasm-opt", "arm-none-eabi", "qemu-arm", "dnsmasq")
def test_on_the_board(folder, core_for):
    shell(block("portable/board/build LIBRARY board").replace("LIBRARY", str(core_for("cortex-m3"))), folder)
    commands = block("unshare -n").removeprefix("unshare -n\n")
    said = shell(f"{commands}kill $(jobs -p)\nwait\n", folder, "unshare", "-n")
    assert re.search(r"(?m)^</led>.*</ram>.*\n1\nhalf seconds \d+\nfree mbufs 40 of 40\n", said)
    sizes = subprocess.run(
        ["arm-none-eabi-size", folder / "board/device.elf"], capture_output=True, text=True, check=True
    ).stdout.splitlines()[1].split()  # fmt: skip
    whole = int(sizes[1]) + int(sizes[2]) + int(re.search(r"bytes of call stack (\d+)", said)[1])
    assert whole < 0.9 * 65536
    for number in re.search(r"the stack (\d+), the servers \d+, the file ram (\d+)", said).groups():
        assert f"| {int(number):,} |" in PAGE


def test_on_linux(folder, library):
    (folder / "lib").mkdir()
    (folder / "lib/libbsdudp.a").symlink_to(library.archive)
    (folder / "include").symlink_to(folder / "capi/include")
    commands = block("cd capi/examples").replace("PREFIX", str(folder))
    commands += "coap-client-notls -m get coap://10.0.0.1/led\n"
    commands += "curl -s -o came tftp://10.0.0.1/flash\ncmp came ../../LICENSE\nkill $!\n"
    assert shell(commands, folder, "unshare", "-n").splitlines()[-1] == "0"


# The memory map of QEMU's netduinoplus2, an STM32F405 (ST's RM0090, section 2.3). A part of its SRAM is the second
# memory.
MAP = """
MEMORY { FLASH : ORIGIN = 0x08000000, LENGTH = 1024K
         FIRST : ORIGIN = 0x20000000, LENGTH = 32K
         SECOND : ORIGIN = 0x20008000, LENGTH = 64K }
ENTRY(start)
SECTIONS
{
    .text : { KEEP(*(.vectors)) *(.text*) *(.rodata*) *(.ARM.ex*) . = ALIGN(8); values = .; } > FLASH
    .data : { values_start = .; *(.data*) . = ALIGN(8); values_end = .; } > FIRST AT > FLASH
    .bss (NOLOAD) : { variables_start = .; *(.bss*) *(COMMON) . = ALIGN(8); variables_end = .; } > FIRST
    .second (NOLOAD) : { *(.second*) } > SECOND
    memory_end = 0x20008000;
}
"""


@pytest.mark.needs("rt", "arm-none-eabi", "qemu-arm")
def test_another_memory_map(folder, core_for):
    """The device for another board, with the stack in a second memory: it announces its address, and replies to an ARP
    request. The frames begin as RFC 826 and RFC 5227, section 2.3, say."""
    commands = block("portable/core cortex-m4 LIBRARY").partition("\n")[2]
    (folder / "my_board.ld").write_text(MAP, encoding="utf-8")
    port = pathlib.Path(__file__).with_name("other_board.c")
    (folder / "my_port.c").write_text(port.read_text(encoding="utf-8"), encoding="utf-8")
    (folder / "my_start.c").write_text("", encoding="utf-8")
    shell(commands.replace("LIBRARY", str(core_for("cortex-m4"))), folder)
    machine = ["qemu-system-arm", "-M", "netduinoplus2", "-display", "none", "-monitor", "none", "-serial", "null"]
    machine += ["-semihosting-config", "enable=on,target=native", "-kernel", "my_device.elf"]
    streams = {"stdin": subprocess.DEVNULL, "capture_output": True, "text": True}
    done = subprocess.run(machine, cwd=folder, check=False, timeout=120, **streams)
    said = done.stdout + done.stderr
    assert done.returncode == 0 and said.endswith("ended\n"), said
    own, other, everyone, arp = "020000000001", "020000000009", 6 * "ff", "0806"
    frames = re.findall(r"(?m)^[0-9a-f]{28}.?$", said)
    assert frames == [everyone + own + arp, other + own + arp, everyone + own + arp]
