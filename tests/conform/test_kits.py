"""The kits in C and in Python give an adapter each line of a case, and write what it reports."""
import os
import subprocess
import sys

import pytest

from tests.cases import TOP
from tests.conform.conftest import PATHS

LINES = """hello 1
case udp.data:1
mtu 576
socket 1 70
connect 1 10.0.0.2 5000
hold 0
rx 4500
wait 1500
read 0 3
send 1 10.0.0.2 5000 6869
send 0 10.0.0.3 6 -
end
"""
PRINTED = """stack a kit
has sockets connect send hold
end
case udp.data:1
note boot 576
note socket 1 70
refused 1
note hold 0
note rx 2
note wait 1500
got 5 10.0.0.2 5000 6869
note 3
note send 1 10.0.0.2 5000 2
note send 0 10.0.0.3 6 0
refused 7
end
"""
IN_C = r"""
#include "kit.h"
static void boot(int mtu) { printf("note boot %d\n", mtu); }
static void rx(const uint8_t *packet, int length) { (void)packet; printf("note rx %d\n", length); }
static void wait_ms(int ms) { printf("note wait %d\n", ms); }
static void socket_on(int number, int port) { printf("note socket %d %d\n", number, port); }
static void connect_to(int number, uint32_t addr, int port) { (void)number, (void)addr, (void)port; kit_refused(); }
static void hold(int number) { printf("note hold %d\n", number); }
static void read_held(int number, int count)
{
    kit_got_at(number, 0x0a000002, 5000, (const uint8_t *)"hi", 2);
    printf("note %d\n", count);
}
static int send_to(int number, uint32_t addr, int port, const uint8_t *bytes, int length)
{
    (void)bytes;
    printf("note send %d 10.0.0.%u %d %d\n", number, addr & 255, port, length);
    return number;
}
int main(void)
{
    struct kit_stack it = {0};
    it.name = "a kit";
    it.has = "sockets connect send hold";
    it.boot = boot, it.rx = rx, it.wait = wait_ms, it.socket = socket_on, it.connect = connect_to;
    it.hold = hold, it.read = read_held, it.send = send_to;
    return kit_serve(&it);
}
"""
IN_PYTHON = """
from bsdudp_conform.kit import Adapter, serve

class Kit(Adapter):
    name = "a kit"
    has = ("sockets", "connect", "send", "hold")
    def boot(self, mtu):
        print("note boot", mtu)
    def rx(self, packet):
        print("note rx", len(packet))
    def wait(self, ms):
        print("note wait", ms)
    def open(self, socket, port):
        print("note socket", socket, port)
    def connect(self, socket, address, port):
        return False
    def hold(self, socket):
        print("note hold", socket)
    def read(self, socket, count):
        self.got("10.0.0.2", 5000, b"hi", socket)
        print("note", count)
    def send(self, socket, address, port, data):
        print("note send", socket, address, port, len(data))
        return bool(socket)

serve(Kit)
"""


def printed(*words):
    environment = {**os.environ, "PYTHONPATH": PATHS}
    return subprocess.run(
        words, input=LINES, env=environment, capture_output=True, text=True, check=True, timeout=60
    ).stdout


@pytest.mark.needs("cc")
def test_in_c(tmp_path):
    (tmp_path / "kit.c").write_text(IN_C, encoding="utf-8")
    kit = TOP / "conform/bsdudp_conform/templates"
    words = ["cc", "-std=c99", "-D_POSIX_C_SOURCE=200809L", "-Wall", "-Wextra", "-Werror", "-Wno-unused-function"]
    subprocess.run([*words, f"-I{kit}", tmp_path / "kit.c", "-o", tmp_path / "kit"], check=True)
    assert printed(tmp_path / "kit") == PRINTED


def test_in_python(tmp_path):
    (tmp_path / "kit.py").write_text(IN_PYTHON, encoding="utf-8")
    assert printed(sys.executable, tmp_path / "kit.py") == PRINTED
