"""The bounds of the law of the wire without end are exact (docs/model.md). Two datagrams of two fragments each have the
same sum in each fragment, so no checksum tells their fragments apart. The first fragment of one and the last fragment
of the other arrive: they are joined exactly if their sends are 65,536 apart and fewer than 60 ticks lie between them.
Sends count from the call, so refused sends count too."""
import subprocess

import pytest

TO = "sendto 3 10.0.0.2 7 "
SMALL = TO + "61"
QUEUE = 50  # packets in the output queue
NOTHING = "error 35 EWOULDBLOCK"


def equal_sums(seed: int) -> bytes:
    """Returns 48 bytes whose words add up to 65,535 in pairs."""
    words = [(seed * 977 + k * 131) % 65536 for k in range(12)]
    return b"".join(word.to_bytes(2, "big") + (65535 - word).to_bytes(2, "big") for word in words)


ONE, OTHER = equal_sums(1), equal_sums(2)
JOINED = ONE[:40] + OTHER[40:]  # at MTU 68 a fragment carries 48 bytes, 8 of them UDP's header
# The lines between the two sends, with which the first of them waits, and the lines that take its packets.
TAKEN = [TO + ONE.hex(), "tx", "tx"]
STALLED = [SMALL] * (QUEUE - 1) + [TO + ONE.hex()]
RUNS = {
    "65,535 sends apart": (TAKEN + [SMALL, "tx"] * 65534, 59, NOTHING),
    "65,536 sends apart": (TAKEN + [SMALL, "tx"] * 65535, 59, f"from 10.0.0.1 1024 {JOINED.hex()}"),
    "65,536 sends and 60 ticks apart": (TAKEN + [SMALL, "tx"] * 65535, 60, NOTHING),
    "65,534 refused sends while the link stalls": (STALLED + [SMALL] * 65534 + ["tx"] * QUEUE, 0, NOTHING),
    "65,535 refused sends while the link stalls": (
        STALLED + [SMALL] * 65535 + ["tx"] * QUEUE,
        0,
        f"from 10.0.0.1 1024 {JOINED.hex()}",
    ),
}


def replies(bsdudp, address: str, lines: list[str]) -> list[str]:
    words = [bsdudp, "run", "--mtu", "68", "--addr", address]
    script = "".join(f"{line}\n" for line in lines)
    return subprocess.run(words, input=script, capture_output=True, text=True, check=True).stdout.splitlines()


@pytest.mark.slow
@pytest.mark.parametrize("lines, ticks, received", RUNS.values(), ids=RUNS)
def test_fragments_of_two_sends(lines, ticks, received, bsdudp):
    sent = replies(bsdudp, "10.0.0.1", ["socket", *lines, TO + OTHER.hex(), "tx", "tx"])
    packets = [reply.split()[1] for reply in sent if reply.startswith("packet ")]
    fragments = [packet for packet in packets if int(packet[12:16], 16) & 0x3FFF]  # a flag or an offset
    first, last = fragments[0], fragments[-1]
    arrives = ["socket", "bind 3 0.0.0.0 7", f"rx {first}", *["tick"] * ticks, f"rx {last}", "recvfrom 3 65535"]
    assert replies(bsdudp, "10.0.0.2", arrives)[-1] == received
