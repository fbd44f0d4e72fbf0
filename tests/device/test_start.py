"""The device without a card: what it prints if it can't start, and its announcement, compared with scapy's."""
import subprocess

import pytest

from tests.capi.conftest import CC, library, runs  # noqa: F401 (fixtures)

pytestmark = pytest.mark.needs("cc")
# The functions of a port, and a main function. A frame that is sent is printed.
PORT = """
#include "device.h"
#include <stdio.h>
int port_start(const uint8_t mac[6]) { return mac[0] == 4 ? -1 : 0; }
size_t port_receive(uint8_t *frame) { (void)frame; return 0; }
void port_send(const uint8_t *frame, size_t len) { size_t i; for (i = 0; i < len; i++) printf("%%02x", frame[i]); }
int port_ticked(void) { return 0; }
int port_wait(void) { return 0; }
void port_say(const char *text) { printf("%%s", text); }
uint32_t port_random(void) { return 7; }
uint32_t port_stack(void) { return 0; }
static unsigned char memory[BSDUDP_ETHER_MEMORY(40, 7)] __attribute__((aligned(BSDUDP_ALIGNMENT)));
static uint8_t ram[10];
int main(void)
{
    const struct device it = {{BSDUDP_IP(10, 0, 0, 1), %s, 40, 7, 1500, 1}, {{%s, 0, 0, 0, 0, 1}, 0xffffff00, %s, 0},
                              memory, %s, ram, 10, ram, 10};
    %s
    return 0;
}
"""
RUN = "device_run(&it);"
ROWS = {
    "no card": ("0", "4", "0", "sizeof memory", RUN, "no card\n"),
    "gateway": (
        "0", "2", "BSDUDP_IP(10, 0, 1, 2)", "sizeof memory", RUN,
        "no host: gateway must be a neighbour: another host's address on mask's network\n",
    ),
    "memory": ("0", "2", "0", "1000", RUN, "no host: len is too small for mbufs and clusters, or malloc failed\n"),
    "broadcast": (
        "BSDUDP_IP(10, 0, 1, 255)", "2", "0", "sizeof memory", RUN,
        "no host: bcast must be the last address of mask's network\n",
    ),
}  # fmt: skip


def program(row, library, compiled, folder):  # noqa: F811
    *words, _ = row
    (folder / "port.c").write_text(PORT % tuple(words), encoding="utf-8")
    sources = [f"examples/{it}.c" for it in ("device", "dhcp", "dhcp_message", "coap", "tftp", "drops")]
    return compiled("device", CC, "-std=gnu99", "-Wall", "-Iinclude", "-Iexamples", folder / "port.c", *sources,
                    library.archive)  # fmt: skip


@pytest.mark.parametrize("name", ROWS)
def test_says_why_it_does_not_start(name, library, compiled, runs, tmp_path):  # noqa: F811
    runs(program(ROWS[name], library, compiled, tmp_path), says=ROWS[name][-1])


@pytest.mark.needs("scapy")
def test_announcement(library, compiled, runs, tmp_path):  # noqa: F811
    from scapy.all import ARP, Ether  # noqa: PLC0415

    mac, own = "02:00:00:00:00:01", "10.0.0.1"
    arp = ARP(op=1, hwsrc=mac, psrc=own, hwdst="0:0:0:0:0:0", pdst=own)
    frame = bytes(Ether(src=mac, dst="ff:ff:ff:ff:ff:ff") / arp)
    row = ("0", "2", "0", "sizeof memory", "device_announce(&it);", frame.hex())
    runs(program(row, library, compiled, tmp_path), says=frame.hex())


# A client that no server replies to. It prints the numbers of its first five messages.
CLIENT = """
#include "dhcp.h"
#include <stdio.h>
static unsigned char memory[BSDUDP_ETHER_MEMORY(40, 7)] __attribute__((aligned(BSDUDP_ALIGNMENT)));
static uint32_t drawn = 0xfedcba00;
static uint32_t draw(void) { return ++drawn; }
static void client(uint32_t (*random)(void))
{
    struct bsdudp host = BSDUDP_NONE;
    struct dhcp it = {.host = &host, .config = {BSDUDP_IP(10, 0, 0, 1), 0, 40, 7, 1500, 1},
                      .link = {{2, 0, 0, 0, 0, 1}, 0, 0, 0}, .memory = memory, .memory_len = sizeof memory, .seed = 7};
    uint8_t frame[BSDUDP_ETHER_ROOM], *xid = frame + 14 + 20 + 8 + 4;
    int ticks, count = 0;
    it.random = random;
    for (ticks = dhcp_start(&it); ticks < 300; ticks++) {
        dhcp_tick(&it);
        while (dhcp_transmit(&it, frame) > 0 && it.addr == 0 && count++ < 5)
            printf("%02x%02x%02x%02x\\n", xid[0], xid[1], xid[2], xid[3]);
    }
}
int main(void) { client(draw); client(NULL); return 0; }
"""


def test_number_of_a_message(library, compiled, tmp_path):  # noqa: F811
    """The program draws it, or it follows from the seed. The four requests of INIT-REBOOT have the same."""
    (tmp_path / "client.c").write_text(CLIENT, encoding="utf-8")
    words = ["-std=gnu99", "-Wall", "-Iinclude", "-Iexamples", tmp_path / "client.c", "examples/dhcp.c"]
    it = compiled("client", CC, *words, "examples/dhcp_message.c", library.archive)
    said = subprocess.run([it], capture_output=True, text=True, check=True).stdout.split()
    assert said[:5] == 4 * ["fedcba01"] + ["fedcba02"]
    assert len(said) == 10 and len(set(said[5:9])) == 1 and len(set(said)) == 4
