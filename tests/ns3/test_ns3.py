"""libns3-bsdudp, ns-3's UDP sockets with the C library, built without a warning: its tests, plain and with the
sanitizers, which compare it with ns-3's own stack; each error that ends a program; the examples; and what cmake
--install installs, with the program in docs/ns3.md."""
import csv
import os
import re
import subprocess
import sys
import textwrap

import pytest

from tests.cases import TOP

pytestmark = [pytest.mark.slow, pytest.mark.needs("cc", "c++", "cmake", "pkg-config", "ns-3 3.37")]
pytestmark += [pytest.mark.xdist_group("ns3")]
WITH_SANITIZERS = [pytest.mark.needs("asan"), pytest.mark.xdist_group("ns3-sanitized"), pytest.mark.long]
HOME = TOP / "simulators/ns3"
SANITIZED = ["-DBSDUDP_EXAMPLES=OFF", "-DCMAKE_BUILD_TYPE=None"]
SANITIZED += ["-DCMAKE_CXX_FLAGS=-O1 -g1 -fsanitize=address,undefined -fno-sanitize-recover=all"]
# Refused configurations, and their error texts.
REFUSED = {
    "frame": "its MTU must be 68 to 1500, not 1501",
    "gateway": "gateway must be a neighbour",
    "mtu": "its MTU must be 68 to 4352, not 9000",
    "device": "node 0 has a bsdudp stack already",
    "stack": "node 0 has another stack already",
    "later": "a node must have only one stack",
    "address": "10.0.0.1 with the broadcast address 10.0.0.1",
    "count": "there are 1 nodes and 2 devices",
    "bulk": "has no TCP, which BulkSendApplication needs",
    "ping": "has no raw sockets, which V4Ping needs",
}
NEAR = 0.06  # shares within this distance may differ only by the packets that were lost
WRONG = "ip.checksum.status != 1 || (udp && udp.checksum.status != 1) || _ws.malformed"
IN_10_MINUTES = {"capture_output": True, "text": True, "check": False, "timeout": 600}


def passed(*words, **how):
    """Returns a command's output. If it fails, the test fails with its first error."""
    done = subprocess.run([*map(str, words)], **IN_10_MINUTES, **how)
    said = done.stdout + done.stderr
    if done.returncode:
        first = re.search(r"(?m)^.*(error|Error|cases:).*$", said)
        pytest.fail(f"{words[0]}: status {done.returncode}: {first[0] if first else said[-1500:]}", pytrace=False)
    return said


@pytest.fixture(scope="session")
def prefix(core, once):
    """The folder in which the C library and libns3-bsdudp are installed."""

    def make(folder):
        subprocess.run([TOP / "capi/install", folder], check=True)

    return once("ns3-prefix", make)


@pytest.fixture(scope="session")
def built(prefix, once):
    """built(NAME, ARGUMENTS OF cmake ..) returns a folder with the library, its tests and its examples."""

    def of(name, *words):
        def make(folder):
            where = [f"-DCMAKE_INSTALL_PREFIX={prefix}", "-DCMAKE_INSTALL_LIBDIR=lib"]
            strict = ["-DBSDUDP_STRICT=ON", "-DBSDUDP_TESTS=ON", "-DCMAKE_UNITY_BUILD=ON"]
            environment = {**os.environ, "PKG_CONFIG_PATH": f"{prefix}/lib/pkgconfig"}
            configure = ["-S", HOME, "-B", folder, *where, *strict, *words]
            for line in (configure, ["--build", folder, "-j", os.cpu_count()]):
                done = subprocess.run(
                    ["cmake", *map(str, line)], env=environment, capture_output=True, text=True, check=False
                )
                said = re.search(r"(?m)^.*(error|Error).*$", done.stdout + done.stderr)
                assert done.returncode == 0, f"{name} can't be built: {said[0] if said else done.stderr[-1500:]}"

        return once(f"ns3-{name}", make)

    return of


@pytest.fixture
def plain(built):
    return built("plain")


@pytest.mark.parametrize(
    "name, words", [("plain", []), pytest.param("sanitized", SANITIZED, marks=WITH_SANITIZERS)]
)
def test_cases(name, words, built):
    passed(built(name, *words) / "bsdudp-cases")


@pytest.mark.parametrize("name", REFUSED)
def test_refused(name, plain, tmp_path):
    """An error that ends a program names bsdudp and the reason."""
    words = ["bash", "-c", 'ulimit -c 0; exec "$@"', "bash", plain / "bsdudp-cases", f"--refuse={name}"]
    done = subprocess.run(words, cwd=tmp_path, **{**IN_10_MINUTES, "timeout": 100})
    assert done.returncode, "it isn't refused"
    assert re.search(f"bsdudp: .*{re.escape(REFUSED[name])}", done.stdout + done.stderr), done.stderr[:500]


@pytest.mark.parametrize("name", sorted(it.name for it in (HOME / "examples").iterdir()))
def test_example_is_short(name):
    assert len((HOME / "examples" / name).read_text(encoding="utf-8").splitlines()) < 120


def test_first(plain):
    assert len(re.findall("client receives 1024 bytes", passed(plain / "bsdudp-first"))) == 3


def wrong_packets(capture):
    """Returns the first packet of a capture in which tshark finds a wrong checksum or something malformed."""
    options = ["-o", "ip.check_checksum:TRUE", "-o", "udp.check_checksum:TRUE"]
    words = ["tshark", "-r", capture, *options, "-Y", WRONG]
    done = subprocess.run(words, capture_output=True, text=True, check=False)
    assert done.returncode == 0, done.stderr[-500:]
    return done.stdout.splitlines()[:1]


@pytest.mark.parametrize("node", [0, 1])
@pytest.mark.needs("tshark")
def test_captures(node, plain, tmp_path):
    """tshark finds each checksum in the devices' captures right, including those of fragments."""
    passed(plain / "bsdudp-first", "--pcap", "--size=9000", cwd=tmp_path)
    capture = tmp_path / f"bsdudp-first-{node}-0.pcap"
    assert capture.stat().st_size > 0
    assert not wrong_packets(capture)


@pytest.mark.parametrize("size, fragments", [(1024, 1), (3000, 3)])
def test_second(size, fragments, plain):
    """The first datagram waits in the router, which holds three packets for an unknown hardware address: all arrive."""
    said = passed(plain / "bsdudp-second", f"--size={size}")
    assert len(re.findall(f"client receives {size} bytes", said)) == 3
    assert f"server: {3 * fragments} packets received, 0 lacked a hardware address" in said


@pytest.mark.needs("tshark")
def test_frames_of_the_lan(plain, tmp_path):
    """The host announces its address twice (RFC 5227, section 1.1), replies to the router's request, and its packets
    have right checksums."""
    passed(plain / "bsdudp-second", "--pcap", "--size=3000", cwd=tmp_path)
    capture = tmp_path / "bsdudp-second-4-0.pcap"
    assert not wrong_packets(capture)
    words = ["tshark", "-r", capture, "-Y", "arp.src.proto_ipv4 == 10.1.2.4", "-T", "fields"]
    words += ["-e", "eth.dst", "-e", "arp.opcode", "-e", "arp.dst.proto_ipv4"]
    rows = subprocess.run(words, capture_output=True, text=True, check=True).stdout.splitlines()
    assert rows.count("ff:ff:ff:ff:ff:ff\t1\t10.1.2.4") == 2
    assert [it for it in rows if it.endswith("\t2\t10.1.2.1")]


@pytest.mark.parametrize(
    "words, says",
    [
        ([], "back at bsdudp 20 of 20, at ns-3's own 20 of 20"),
        (["--loss=0.1", "--size=4000"], "bsdudp drops 1500 bytes, ip.fragtimeout: fragments missing"),
    ],
)
def test_mixed(words, says, plain):
    assert says in passed(plain / "bsdudp-mixed", *words)


def test_hundred(plain):
    said = passed(plain / "bsdudp-hundred")
    share, law = re.search(r"(?m)^received.* which is ([0-9.]*); .* is ([0-9.]*)$", said).groups()
    assert abs(float(share) - float(law)) < NEAR


@pytest.fixture(scope="session")
def study(built, once):
    """The table that the study prints."""

    def make(folder):
        (folder / "study.csv").write_text(passed(built("plain") / "bsdudp-study"), encoding="utf-8")

    return once("ns3-study", make) / "study.csv"


def test_study(study):
    rows = list(csv.reader(study.read_text(encoding="utf-8").splitlines()))[1:]
    assert len(rows) == 27
    for *_, share, own, law in rows:
        assert share == own, "another share came than by ns-3's own stack"
        assert abs(float(share) - float(law)) < NEAR


@pytest.mark.needs("matplotlib")
def test_plot_of_the_study(study, tmp_path, monkeypatch):
    monkeypatch.setenv("MPLCONFIGDIR", str(tmp_path))
    passed(sys.executable, HOME / "examples/bsdudp-study.py", study, tmp_path / "study.png")
    assert (tmp_path / "study.png").stat().st_size > 0


@pytest.fixture(scope="session")
def pools(built, once):
    """How many runs with each pool have the result of ns-3's own stack: rows by loss, each with its counts by pool."""

    def make(folder):
        said = passed(built("plain") / "bsdudp-pools", "--seeds=1")
        (folder / "pools.txt").write_text(said, encoding="utf-8")

    names, *rows = (once("ns3-pools", make) / "pools.txt").read_text(encoding="utf-8").splitlines()
    names = names.split("runs alike")[0].split()[1:]
    return {row.split()[0]: dict(zip(names, map(int, row.split()[1:]))) for row in rows}


@pytest.mark.parametrize("loss", ["0", "0.01", "0.05", "0.1", "0.2"])
def test_the_default_pool_changes_nobodys_datagrams(loss, pools):
    assert pools[loss]["default"] == 1


def test_a_small_pool_does(pools):
    """Otherwise the scenario of bsdudp-pools doesn't show whether a pool is large enough."""
    assert pools["0.1"]["512"] == 0


PAGE = (TOP / "docs/ns3.md").read_text(encoding="utf-8")


def of_page(program, plain, prefix, folder):
    """Returns the output of a program that the page's commands build with what is installed."""
    passed("cmake", "--install", plain)
    (folder / "program.cc").write_text(program, encoding="utf-8")
    command = re.search(r"(?m)^    export LD_RUN_PATH.*\n.*$", PAGE)[0].replace("~/.local", str(prefix))
    environment = {**os.environ, "PKG_CONFIG_PATH": f"{prefix}/lib/pkgconfig"}
    return passed("bash", "-c", command, cwd=folder, env=environment).strip()


def piece(of):
    """Returns the indented lines of the page that begin with such a line."""
    return textwrap.dedent(re.search(rf"(?m)^    {of}.*\n(?:^    .*\n|^\n)*", PAGE)[0])


def test_program_of_the_page(plain, prefix, tmp_path):
    assert of_page(piece('#include "ns3'), plain, prefix, tmp_path) == "received 1024 bytes"


ROUTED = """#include "ns3/internet-module.h"
#include "ns3/bsdudp-module.h"
#include "ns3/core-module.h"
#include "ns3/network-module.h"
#include "ns3/point-to-point-module.h"
#include <iostream>
using namespace ns3;

SIGNATURES
void
Dropped(Ptr<const Packet> packet, const std::string& cause)
{
    std::cout << "dropped " << packet->GetSize() << " bytes, " << cause << std::endl;
}

void
DroppedAt(std::string path, Ptr<const Packet> packet, const std::string& cause)
{
    std::cout << "at " << path << std::endl;
}

int
main()
{
ROUTERS
    for (uint32_t i : {0, 1})
        ends.Get(i)->GetObject<BsdudpStack>()->TraceConnectWithoutContext("Drop", MakeCallback(&Dropped));
    Config::Connect("/NodeList/*/$ns3::BsdudpStack/Drop", MakeCallback(&DroppedAt));
    auto sender = Socket::CreateSocket(ends.Get(0), TypeId::LookupByName("ns3::UdpSocketFactory"));
    sender->Bind();
    sender->SendTo(Create<Packet>(100), 0, InetSocketAddress("10.1.3.2", 9));
    sender->SendTo(Create<Packet>(9217), 0, InetSocketAddress("10.1.3.2", 9));
    Simulator::Run();
    Simulator::Destroy();
}
"""


def test_routers_and_signatures_of_the_page(plain, prefix, tmp_path):
    """The page's static routes lead a datagram to a closed port of the other end, and both signatures can be
    connected. The first send that is too long is a warning."""
    program = ROUTED.replace("SIGNATURES", piece("void Dropped")).replace("ROUTERS", piece("NodeContainer ends"))
    lines = of_page(program, plain, prefix, tmp_path).splitlines()
    too_long = "send: a datagram of 9217 bytes, and at most 9216 can be sent"
    assert sorted(lines) == sorted([
        f"dropped 9217 bytes, {too_long}",
        "at /NodeList/0/$ns3::BsdudpStack/Drop",
        "dropped 128 bytes, udp.noport: no socket has the port",
        "at /NodeList/1/$ns3::BsdudpStack/Drop",
        f"bsdudp: node 0: not sent: {too_long}. GetTooLong() counts further ones",
    ])  # fmt: skip


def test_parameters_of_trace_sources():
    """The page's parameters are those of the header."""
    header = (HOME / "model/bsdudp-stack.h").read_text(encoding="utf-8")
    for name, member in (("Tx", "m_txTrace"), ("Drop", "m_dropTrace"), ("Delivered", "m_deliveredTrace")):
        (of_table,) = re.findall(rf"(?m)^\| `{name}` \| `(.*?)` \|", PAGE)
        (of_header,) = re.findall(rf"TracedCallback<(.*)> {member};", header)
        assert of_table == of_header
