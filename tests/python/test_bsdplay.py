"""With the same seed, the wires of `bsdplay` and of this package make the same choices, and bsdplay's capture has the
packets that were delivered."""
import re
import struct
import subprocess

from tests.python.package import bsdudp

HOSTS = [("a", "10.0.0.1", 576), ("b", "10.0.0.2", 1500), ("c", "10.0.0.3", 296)]
ROUNDS = 40
LENGTHS = [3, 700, 1, 2_500, 0, 9_000]
UNDER_WAY = re.compile(
    r"    \d+  (\w+): [\d.]+ > [\d.]+, (\d+) bytes, id (\d+)(?:, a fragment .*?)?(?:, due after (\d+))?"
)


def sends():
    """Returns the sender, the receiver and the length of the send in each round."""
    return [(at % 3, (at + 1 + at // 3 % 2) % 3, LENGTHS[at % len(LENGTHS)]) for at in range(ROUNDS)]


def script():
    lines = [f"host {name} --addr {addr} --mtu {mtu}" for name, addr, mtu in HOSTS]
    lines += ["wire a b c", "loss 20%", "loss 1/2 from b", "repeat 0.1", "reorder 1/5", "delay 0-3", "seed 7"]
    for name, _, _ in HOSTS:
        lines += [f"{name}: socket", f"{name}: bind 3 0.0.0.0 7"]
    for source, to, length in sends():
        data = f"@{length}" if length else "-"
        lines += [f"{HOSTS[source][0]}: sendto 3 {HOSTS[to][1]} 7 {data}", "carry", "show wire"]
    return "\n".join(lines + ["carry all", "summary"]) + "\n"


def flights_of_program(program, tmp_path):
    """Returns the packets on the wire after each round, and the counts of each host, as the program prints them."""
    path = tmp_path / "choices.txt"
    path.write_text(script())
    command = [program, "--quiet", "--pcap", tmp_path / "wire.pcap", path]
    told = subprocess.run(command, capture_output=True, text=True, check=True).stdout
    flights, counts = [], []
    for line in told.splitlines():
        found = UNDER_WAY.fullmatch(line)
        if line.endswith("under way") and "packet" in line:
            flights.append([])
        elif found:
            flights[-1].append((found[1], int(found[2]), int(found[3]), int(found[4] or 0)))
        elif line.startswith("    "):
            counts.append([int(n) for n in re.findall(r"(?:sent|lost|repeated|received) (\d+)", line)])
    return flights, counts


def packets_of(path):
    """Returns the packets in a capture, which is little endian, in microseconds, with link type IPV4."""
    data = path.read_bytes()
    assert struct.unpack_from("<IHHiIII", data) == (0xA1B2C3D4, 2, 4, 0, 0, 65_535, 228)
    packets, at = [], 24
    while at < len(data):
        _, _, kept, length = struct.unpack_from("<IIII", data, at)
        assert kept == length and at + 16 + kept <= len(data)
        packets.append(data[at + 16 : at + 16 + kept])
        at += 16 + kept
    return packets


def test_the_same_choices(tmp_path, bsdplay):
    flights, counts = flights_of_program(bsdplay, tmp_path)
    stacks = [bsdudp.Stack(addr, mtu=mtu) for _, addr, mtu in HOSTS]
    sockets = []
    for stack in stacks:
        sockets.append(stack.socket())
        sockets[-1].bind(("", 7))
    wire = bsdudp.Wire(stacks, "0.2", "0.1", "0.2", (0, 3), 7, str(tmp_path / "mine.pcap"))
    wire.sender(stacks[1]).loss = "0.5"
    assert len(flights) == ROUNDS
    for (source, to, length), seen in zip(sends(), flights):
        sockets[source].sendto(bytes(at % 256 for at in range(length)), (HOSTS[to][1], 7))
        wire.carry()
        mine = [
            (HOSTS[stacks.index(it.sender)][0], len(it.packet), it.packet.identification, it.wait)
            for it in wire.under_way
        ]
        assert seen == mine
    assert wire.run()
    totals = [sum(column) for column in zip(*counts)]
    carried = wire.carried
    assert totals == [carried.sent, carried.lost, carried.repeated, carried.delivered]
    # Each delivered packet arrived once, because no packet was for all hosts.
    assert sorted(packets_of(tmp_path / "wire.pcap")) == sorted(packets_of(tmp_path / "mine.pcap"))
