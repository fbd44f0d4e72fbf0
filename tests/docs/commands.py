"""The tests of each command that pages ask their readers to type.

These have no row: a script by itself (test_help.py runs each), `make ..`, `pytest ..` and Debian's packages
(test_commands.py), and `rt ..` (tests/commands/test_pages.py)."""
from __future__ import annotations

import fnmatch
import re
from typing import Iterator, Mapping, NamedTuple, Sequence

from tests.docs.pages import OF_THE_PAST, TOP, Command, commands, documents, is_script, read

# Pages of which all commands need a test. Of other pages, those in the first SCREEN lines do.
WHOLE = ("README.md", "CONTRIBUTING.md")
SCREEN = 40


class Row(NamedTuple):
    """A subject of the tests, and the part of the command that its files contain. A subject is a folder of tests/, NAME
    of a test_NAME.py, a script in .ci/, or a folder that contains a folder tests/."""

    subject: str
    part: str


# A `*` in a command matches any text.
ROWS = {
    # README's block, on an empty system
    'git clone -q "$REPOSITORY" bsdudp': Row("fresh", 'blocks("commands")'),
    "cd bsdudp": Row("fresh", 'blocks("commands")'),
    "cc -Icapi/include capi/examples/first.c out/libbsdudp.a && ./a.out": Row("fresh", "test_readme_without_a_proof"),
    "PYTHONPATH=out/python python3 python/examples/first.py": Row("fresh", "test_readme_without_a_proof"),
    "export PATH=$PWD/out/unproved:$PATH": Row("play", "export PATH=$PWD/out/unproved:$PATH"),
    # what is installed
    "dist/deb FOLDER": Row("deb", "dist/deb"),
    "dist/deb --judge FOLDER": Row("judge", '"--judge"'),
    "pip install ./conform": Row("judge", "pip install"),
    "conform/bsdudp-conform template mine": Row("templates", '"template"'),
    "bsdudp-conform lab": Row("lab", "test_the_page"),
    "bsdudp-conform lab start handout": Row("lab", '"lab", "start", handout'),
    "python3 judge.pyz lab check --step 1 .": Row("lab", '"judge.pyz", "lab", "check"'),
    "bsdudp-conform lab grade --feedback feedback class > grades.csv": Row("lab", '"lab", "grade", "--feedback"'),
    "apt install ./bsdudp_*.deb ./libbsdudp*.deb ./python3-bsdudp_*.deb": Row("deb", "dpkg -i"),
    "man bsdudp": Row("made_pages", "bsdudp.1"),
    "man bsdplay": Row("made_pages", "bsdplay.1"),
    "man 3 bsdudp": Row("made_pages", "bsdudp.3"),
    "dist/build FOLDER": Row("dist", "dist/build"),
    "./install ~/.local": Row("dist", 'install"'),
    "python3 -m venv bench && . bench/bin/activate": Row("dist", "venv"),
    "pip install share/bsdudp/bsdudp-*.whl": Row("dist", "bin/pip"),
    # the C library
    "capi/install *": Row("capi", "capi/install"),
    "cc program.c -I PREFIX/include PREFIX/lib/libbsdudp.a && ./a.out": Row("capi", "lines[0]"),
    "export PKG_CONFIG_PATH=PREFIX/lib/pkgconfig LD_LIBRARY_PATH=PREFIX/lib": Row("capi", "lines[1:3]"),
    "cc program.c $(pkg-config --cflags --libs bsdudp) && ./a.out": Row("capi", "lines[1:3]"),
    "export BSDUDP_LIBRARY=~/.local/lib/libbsdudp.so.0 PYTHONPATH=$PWD/python": Row("python", "BSDUDP_LIBRARY"),
    "portable/core cortex-m3 FOLDER": Row("core", "portable/core"),
    "portable/core targets": Row("core", "targets"),
    "portable/build FOLDER": Row("portable", "portable/build"),
    # ns-3, and a host on an Ethernet
    "export PKG_CONFIG_PATH=~/.local/lib/pkgconfig": Row("ns3", "lib/pkgconfig"),
    "cmake -S simulators/ns3 -B ~/ns3-bsdudp -DCMAKE_INSTALL_PREFIX=~/.local": Row("ns3", "simulators/ns3"),
    "cmake --build ~/ns3-bsdudp -j 4 && cmake --install ~/ns3-bsdudp": Row("ns3", "--install"),
    "./tap_host tap0 &": Row("capi", "tap_host"),
    "ip addr add 10.0.0.2/24 dev tap0": Row("capi", "ip addr add 10.0.0.2/24"),
    "ip link set tap0 up": Row("capi", "ip link set"),
    "ping 10.0.0.1": Row("capi", '"ping"'),
    "unshare -n": Row("capi", "unshare -n"),
    # a device
    "portable/core cortex-m3 LIBRARY": Row("core", "portable/core"),
    "portable/board/build LIBRARY board": Row("device", 'block("portable/board/build'),
    "portable/board/build LIBRARY board FILE": Row("device", "portable/board/build"),
    "ip tuntap add dev tap0 mode tap": Row("device", 'block("unshare -n")'),
    "qemu-system-arm * -kernel board/device.elf < /dev/null &": Row("device", 'block("unshare -n")'),
    "cd capi/examples": Row("device", 'block("cd capi/examples")'),
    "cc -std=gnu99 device_tap.c *": Row("device", 'block("cd capi/examples")'),
    "./device tap0 ../../LICENSE &": Row("device", 'block("cd capi/examples")'),
    # the programs
    "cd crates/net_stack": Row("definitions", "crates/net_stack"),
    "cd crates/ip_out": Row("definitions", "crates/ip_out"),
    "rt lemma StepBy": Row("definitions", "StepBy"),
    "rt lemma head_fault": Row("definitions", "head_fault"),
    "tools/lists write": Row("lists", "tools/lists"),
}
class Session(NamedTuple):
    """Commands of a page that tests/commands/test_pages.py runs in order in an empty folder, with the built programs on
    the path."""

    page: str
    commands: Sequence[str]
    # Files and folders in it, each with its path in this repository, or with its text.
    given: Mapping[str, str] = {}
    # Texts that a reader replaces, and their replacements.
    instead: Mapping[str, str] = {}
    # The page's text before the block that shows the output, in this order.
    shown: str = ""
    # Other lines that are printed, in this order.
    prints: Sequence[str] = ()
    # The commands that don't end with status 0, and their statuses.
    statuses: Mapping[str, int] = {}
    needs: Sequence[str] = ()


EXAMPLES = {"examples": "examples"}
KEY = "examples/play/exercise_04_fragments_out.txt"
SESSIONS = {
    "why": Session(
        "docs/captures.md",
        ["bsdplay why capture.pcap"],
        {"capture.pcap": "examples/play/faults.pcap"},
        shown="This is some of the output for",
    ),
    "why as a host": Session(
        "docs/captures.md",
        ["bsdplay why --ether --mac 02:00:00:00:00:01 --addr 10.0.0.1 capture.pcap"],
        {"capture.pcap": "examples/play/faults.pcap"},
        prints=["A host on an Ethernet judges, with ARP and ICMP."],
    ),
    "scripts": Session(
        "docs/scripts.md", ["bsdplay examples/play/why_dropped.txt"], EXAMPLES, shown="and the changes:"
    ),
    "tour": Session(
        "docs/tour.md",
        [f"bsdplay examples/play/{it.name}" for it in sorted((TOP / "examples/play").glob("tour_*.txt"))],
        EXAMPLES,
        shown="bsdplay examples/play/tour_01_bind_and_receive.txt\n\n    2",
    ),
    "tour of chains": Session(
        "docs/tour.md",
        [
            f"bsdudp chain < examples/chain/{it}.txt | paste examples/chain/{it}.txt - | "
            r"sed 's/\(..\)\1\{9,\}/\1../' | expand -t 27"
            for it in ("shared_cluster", "pull_up_and_trim")
        ],
        EXAMPLES,
        prints=[
            line[4:]
            for line in read("docs/tour.md").partition("`bsdudp chain` plays scripts")[2].splitlines()
            if re.match(r"    (?!bsdudp |    sed )", line)
        ],
    ),
    "replies": Session(
        "docs/scripts.md",
        ["bsdudp run < script.txt | paste script.txt - | expand -t 72"],
        {"script.txt": "examples/refusals.txt"},
        prints=["socket ok 3", "hello ? line"],
    ),
    "an exercise": Session(
        "docs/teaching.md",
        ["bsdplay --blank examples/play/exercise_04_fragments_out.txt"],
        EXAMPLES,
        prints=["sendto 3 10.0.0.2 5000 @1400 => ?"],
    ),
    "answers": Session(
        "docs/maintain/answers.md",
        ["bsdplay examples/play/exercise_01_which_socket.txt"],
        EXAMPLES,
        prints=["3 sockets"],
    ),
    "a reader of the crate": Session(
        "crates/bsdplay/README.md",
        [
            "bsdplay --quiet first.txt second.txt",
            "bsdplay --pcap captured.pcap examples/play/captured.txt",
            "bsdplay --seeds 1-1000 examples/play/wire/lost_by_chance.txt",
            "bsdplay --json < script.txt",
            "bsdplay --from-pcap capture.pcap --records 3-17 --ticks > script.txt",
            "bsdplay why capture.pcap --addr 10.0.0.1",
        ],
        EXAMPLES
        | {name: "examples/play/first_datagram.txt" for name in ("first.txt", "second.txt")}
        | {"script.txt": "examples/play/why_dropped.txt", "capture.pcap": "capi/tests/captures/ethernet.pcap"},
        statuses={"bsdplay --seeds 1-1000 examples/play/wire/lost_by_chance.txt": 1},
    ),
    "chains": Session(
        "crates/bsdudp/README.md",
        ["bsdudp chain --mbufs 8 --clusters 2 < script.txt"],
        {"script.txt": "user 0 61\nmbstat\n"},
        prints=["ok", "mbufs 7/8 clusters 2/2 refs 0 most 0"],
    ),
    "from a capture": Session(
        "docs/captures.md",
        ["bsdplay --from-pcap capture.pcap > script.txt"],
        {"capture.pcap": "examples/play/faults.pcap"},
    ),
    "comments": Session(
        "docs/scripts.md",
        [r"sed -e 's/\r$//' -e 's/[[:space:]]*#.*//' -e '/^$/d' mine.txt | bsdudp run"],
        {"mine.txt": "# mine\nsocket # the first\r\n\nbind 3 0.0.0.0 7\n"},
        prints=["ok 3", "ok"],
    ),
    "side by side": Session(
        "examples/README.md",
        ["paste first_datagram.txt first_datagram.txt.stdout"],
        {name: f"examples/{name}" for name in ("first_datagram.txt", "first_datagram.txt.stdout")},
        prints=["socket ok 3", "recvfrom 3 100 from 10.0.0.2 5000 6869"],
    ),
    "a course": Session(
        "docs/teaching.md",
        [
            "mkdir -p course/hand-ins && cd course",
            "cp /usr/share/doc/bsdudp/examples/play/exercise_04_fragments_out.txt key.txt",
            "bsdplay --strict key.txt",
            "bsdplay --blank key.txt > exercise_04.txt",
            "bsdplay --grade --key key.txt hand-ins/*.txt",
            "bsdplay --grade --key key.txt --csv hand-ins/*.txt > grades.csv",
        ],
        {
            "course/hand-ins/ann.txt": KEY,
            "course/hand-ins/ben.txt": read(KEY).replace("ok 1400", "ok").replace("30\n", "?\n"),
        },
        instead={"/usr/share/doc/bsdudp": str(TOP)},
        shown="# and hands the file in: as hand-ins/ann.txt, hand-ins/ben.txt, ..",
        statuses={
            "bsdplay --grade --key key.txt hand-ins/*.txt": 1,
            "bsdplay --grade --key key.txt --csv hand-ins/*.txt > grades.csv": 1,
        },
    ),
    "a judge": Session(
        "docs/judge.md",
        [
            "bsdudp-conform template mine",
            "cc -Imine mine/template.c YOUR_STACK.. -o adapter",
            "bsdudp-conform run --report out -- ./adapter",
        ],
        # All cases take almost a minute.
        instead={
            "bsdudp-conform": f"{TOP}/conform/bsdudp-conform",
            "YOUR_STACK..": "",
            "--report out": "--report out --only udp.data",
        },
        shown='(`--only` with the rule "udp.data"):',
        statuses={"bsdudp-conform run --report out -- ./adapter": 1},
        needs=["cc"],
    ),
}
ROWS |= {command: Row("commands", "SESSIONS") for it in SESSIONS.values() for command in it.commands}
# The commands that no test runs, and why.
UNTRIED = {
    "nc -u 10.0.0.1 7": "a test of tap_host sends the same datagrams by a socket",
    "tcpdump -e -i tap0": "it shows what a test of tap_host reads by tshark",
    "conform/stacks FOLDER": "tests/conform judges the same stacks, one by one",
    "tcpdump -s 0 -w capture.pcap host 10.0.0.1": "it takes a network card",
    "tcpdump -s 60": "it takes a network card",
    "bench/run.sh stack": "measurements are made by hand",
    "bench/run.sh peers": "measurements are made by hand",
    "grep -rnw IsUnshared crates/*/specs": "it looks for a word",
    "grep -rnw head_fault crates docs tests": "it looks for a word",
    "rt must-fail *": "it takes minutes for a crate; rt ci of the gate does it",
    "tools/mutants *": "it takes minutes for a crate",
    "tools/mutants": "it takes hours, before a version",
    "tools/mutants [CRATE ..]": "it takes hours, before a version",
}
# A program with an option that pages name, but that readers don't type.
NAMES = {"bsdudp run", "bsdudp chain", "bsdplay --grade", "bsdplay why"}


def of_pages() -> Iterator[Command]:
    """Yields the commands that need a test: those in README.md, CONTRIBUTING.md and the first lines of each page in
    docs/."""
    for path in WHOLE:
        yield from commands(path)
    for page in sorted((TOP / "docs").rglob("*.md")):
        yield from commands(str(page.relative_to(TOP)), SCREEN)


def of_documents() -> Iterator[Command]:
    """Yields the commands of all pages, except those about the past."""
    for path in documents():
        if path not in OF_THE_PAST:
            yield from commands(path)


def is_of(text: str, pattern: str) -> bool:
    """Returns whether a row's text matches a command."""
    return text == pattern or ("*" in pattern and fnmatch.fnmatchcase(text, pattern.replace("[", "[[]")))


def row_of(text: str) -> str | None:
    """Returns the row, the reason or the name for a command, or None."""
    return next((it for it in [*ROWS, *UNTRIED, *NAMES] if is_of(text, it)), None)


def is_of_make(text: str) -> bool:
    return re.match(r"make( |$)", text) is not None


def is_of_rt(text: str) -> bool:
    return re.match(r"(cd \S+ && )?rt ", text) is not None


def is_of_pytest(text: str) -> bool:
    return re.match(r"(/usr/bin/python3 -m )?pytest( |$)", text) is not None


def packages_of(text: str) -> list[str]:
    """Returns the packages that a command installs by name."""
    found = re.fullmatch(r"apt-get install((?: [a-z0-9+.-]+)+)", text)
    return found[1].split() if found else []


def has_way(text: str) -> bool:
    """Returns whether a test runs a command, or a reason is given why none does."""
    known = (is_script, is_of_make, is_of_rt, is_of_pytest, packages_of, row_of)
    return any(is_known(text) for is_known in known)
