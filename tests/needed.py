"""What tests need besides Python and pytest: how each tool is found, and which Debian package has it."""
from __future__ import annotations

import functools
import importlib.util
import os
import pty
import shutil
import subprocess
from typing import Callable, NamedTuple


class Tool(NamedTuple):
    """Whether the tool is there, the Debian packages that have it (none: the computer has it or not), and another name
    for what is missing."""

    is_there: Callable[[], bool]
    package: str = ""
    what: str = ""


def command(*names: str) -> Callable[[], bool]:
    return lambda: any(shutil.which(it) for it in names)


def module(name: str) -> Callable[[], bool]:
    return lambda: importlib.util.find_spec(name) is not None


def includes(header: str) -> Callable[[], bool]:
    """Returns whether the C compiler finds a header."""

    def known() -> bool:
        words = [os.environ.get("CC", "cc"), "-E", "-"]
        text = f"#include <{header}>\n".encode()
        return (
            command(words[0])() and not subprocess.run(words, input=text, capture_output=True, check=False).returncode
        )

    return known


def links(*words: str) -> Callable[[], bool]:
    """Returns whether the C compiler builds a program with these arguments that can be run."""

    def known() -> bool:
        script = 'd=$(mktemp -d) && trap "rm -rf $d" EXIT && echo "int main(void){return 0;}" > $d/a.c &&'
        script += f' {os.environ.get("CC", "cc")} {" ".join(words)} $d/a.c -o $d/a && $d/a'
        return not subprocess.run(["sh", "-c", script], capture_output=True, check=False).returncode

    return known


def fuzzes() -> bool:
    """Returns whether clang has libFuzzer's runtime."""
    words = ["clang", "-fsanitize=fuzzer", "-x", "c", "-", "-o", "/dev/null"]
    text = b"int LLVMFuzzerTestOneInput(const unsigned char *a, unsigned long b) { return !a + !b > 1; }"
    return command("clang")() and not subprocess.run(words, input=text, capture_output=True, check=False).returncode


def opens_pty() -> bool:
    """Returns whether a pseudo-terminal can be opened. A tree without /dev/pts has none."""
    try:
        ends = pty.openpty()
    except OSError:
        return False
    for end in ends:
        os.close(end)
    return True


def runs(*words: str) -> Callable[[], bool]:
    """Returns whether a command ends with status 0."""

    def known() -> bool:
        return command(words[0])() and not subprocess.run(words, capture_output=True, check=False).returncode

    return known


NS3 = ["ns3-core = 3.37", "ns3-internet", "ns3-applications", "ns3-point-to-point", "ns3-csma", "gsl", "sqlite3"]
has_namespace = runs("unshare", "-n", "true")
has_veth = runs("unshare", "-n", "ip", "link", "add", "w0", "type", "veth", "peer", "name", "w1")
has_overlay = runs("unshare", "-m", "sh", "-c", "mount -t tmpfs tmpfs /mnt && mkdir /mnt/a /mnt/b /mnt/c /mnt/d && "
                   "mount -t overlay overlay -o lowerdir=/mnt/a,upperdir=/mnt/b,workdir=/mnt/c /mnt/d")  # fmt: skip


TOOLS = {
    "rt": Tool(command("rt"), "", "rt isn't on the path: install the Rattle toolchain"),
    "git": Tool(command("git"), "git"),
    "make": Tool(command("make"), "make"),
    "cc": Tool(command(os.environ.get("CC", "cc")), "gcc"),
    "c++": Tool(command(os.environ.get("CXX", "c++")), "g++"),
    "objdump": Tool(command("objdump"), "binutils"),
    "abidiff": Tool(command("abidiff"), "abigail-tools"),
    "tsan": Tool(links("-fsanitize=thread"), "gcc"),
    "asan": Tool(links("-fsanitize=address,undefined"), "gcc"),
    "pkg-config": Tool(command("pkg-config"), "pkg-config"),
    "glib": Tool(runs("pkg-config", "--exists", "glib-2.0"), "libglib2.0-dev"),
    "go": Tool(command("go"), "golang-go"),
    "gvisor": Tool(lambda: os.path.isdir("/usr/share/gocode/src/gvisor.dev/gvisor"), "golang-gvisor-gvisor-dev"),
    "dpdk": Tool(runs("pkg-config", "--exists", "libdpdk"), "libdpdk-dev"),
    "passt": Tool(command("passt"), "passt"),
    "apt-get": Tool(command("apt-get"), what="this isn't Debian"),
    "cmake": Tool(lambda: command("cmake")() and command("make")(), "cmake make"),
    "ns-3 3.37": Tool(runs("pkg-config", "--exists", *NS3), "libns3-dev libgsl-dev libsqlite3-dev"),
    "dpkg-dev": Tool(command("dpkg-shlibdeps"), "dpkg-dev"),
    "debhelper": Tool(lambda: command("dh")() and command("dh_python3")(), "debhelper dh-python"),
    "lintian": Tool(command("lintian"), "lintian"),
    "libpcap": Tool(includes("pcap/pcap.h"), "libpcap-dev"),
    "tshark": Tool(command("tshark"), "tshark"),
    "rlwrap": Tool(command("rlwrap"), "rlwrap"),
    "editcap": Tool(command("editcap"), "wireshark-common"),
    "mergecap": Tool(command("mergecap"), "wireshark-common"),
    "tcpdump": Tool(command("tcpdump"), "tcpdump"),
    "scapy": Tool(module("scapy"), "python3-scapy"),
    "hypothesis": Tool(module("hypothesis"), "python3-hypothesis"),
    "numpy": Tool(module("numpy"), "python3-numpy"),
    "matplotlib": Tool(module("matplotlib"), "python3-matplotlib"),
    "distributed": Tool(module("distributed"), "python3-distributed"),
    "venv": Tool(module("ensurepip"), "python3-venv"),
    "mypy": Tool(command("mypy"), "mypy"),
    "groff": Tool(command("groff"), "groff-base"),
    "node": Tool(command("node"), "nodejs"),
    "chromium": Tool(
        lambda: command("chromium", "chromium-browser", "google-chrome")()
        and command("chromedriver")()
        and module("selenium")(),
        "chromium chromium-driver python3-selenium",
    ),
    "wasm-opt": Tool(command("wasm-opt"), "binaryen"),
    "wasm2c": Tool(command("wasm2c"), "wabt"),
    "qemu-arm": Tool(command("qemu-system-arm"), "qemu-system-arm"),
    "arm-none-eabi": Tool(command("arm-none-eabi-gcc"), "gcc-arm-none-eabi libnewlib-arm-none-eabi"),
    "dpkg-source": Tool(command("dpkg-source"), "dpkg-dev"),
    "cc -m32": Tool(links("-m32"), "lib32gcc-12-dev libc6-dev-i386"),
    "libfuzzer": Tool(fuzzes, "clang libclang-rt-14-dev"),
    "clang": Tool(command("clang"), "clang"),
    "frama-c": Tool(command("frama-c"), "frama-c-base"),
    "cvc4": Tool(lambda: command("cvc4")() and command("why3")(), "cvc4 why3"),
    "arm-linux-gnueabihf": Tool(command("arm-linux-gnueabihf-gcc"), "gcc-arm-linux-gnueabihf libc6-dev-armhf-cross"),
    "aarch64-linux-gnu": Tool(command("aarch64-linux-gnu-gcc"), "gcc-aarch64-linux-gnu libc6-dev-arm64-cross"),
    "riscv64-linux-gnu": Tool(command("riscv64-linux-gnu-gcc"), "gcc-riscv64-linux-gnu libc6-dev-riscv64-cross"),
    "s390x-linux-gnu": Tool(command("s390x-linux-gnu-gcc"), "gcc-s390x-linux-gnu libc6-dev-s390x-cross"),
    "wine64": Tool(
        lambda: os.access("/usr/lib/wine/wine64", os.X_OK) and command("x86_64-w64-mingw32-gcc")(),
        what="wine64 or gcc-mingw-w64-x86-64 isn't installed (700 MB)",
    ),
    "qemu-user": Tool(command("qemu-arm"), "qemu-user"),
    "debootstrap": Tool(command("debootstrap"), "debootstrap"),
    "ip": Tool(command("ip"), "iproute2"),
    "ping": Tool(command("ping"), "iputils-ping"),
    "arping": Tool(command("arping"), "iputils-arping"),
    "coap-client": Tool(command("coap-client-notls"), "libcoap3-bin"),
    "dnsmasq": Tool(command("dnsmasq"), "dnsmasq-base"),
    "dhcpd": Tool(command("dhcpd"), "isc-dhcp-server"),
    "tftp": Tool(runs("tftp", "-V"), "tftp-hpa"),
    "curl": Tool(command("curl"), "curl"),
    "pty": Tool(opens_pty, what="no pseudo-terminal can be opened here"),
    "root": Tool(lambda: os.geteuid() == 0, what="this user isn't root"),
    "netns": Tool(has_namespace, what="no network namespace can be made here"),
    "veth": Tool(has_veth, what="no pair of veth interfaces can be made here"),
    "tun": Tool(lambda: os.access("/dev/net/tun", os.W_OK), what="/dev/net/tun can't be written here"),
    "overlay": Tool(has_overlay, what="no file system can be mounted here"),
    "x86-64": Tool(lambda: os.uname()[::4] == ("Linux", "x86_64"), what="this isn't Linux on x86-64"),
}


@functools.lru_cache(maxsize=None)
def lacks(name: str) -> str:
    """Returns why a test that needs this tool is skipped, or an empty text. An unknown name is an error in the test."""
    tool = TOOLS[name]
    return "" if tool.is_there() else tool.what or f"no {name}: apt-get install {tool.package}"
