#!/usr/bin/env python3
"""Connects a program that uses SLIP (RFC 1055) on its standard input and output to the TUN device bsdudp0, which it
makes, with the address 10.0.0.2. At SIGTERM it sends the program a packet of one byte 4, which ends it."""
import fcntl
import os
import pathlib
import select
import signal
import struct
import subprocess
import sys

sys.dont_write_bytecode = True
sys.path.insert(0, str(pathlib.Path(__file__).resolve().parent.parent.parent))
from tools import command_line  # noqa: E402

END, ESC, ESCAPED_END, ESCAPED_ESC = b"\xc0", b"\xdb", b"\xdb\xdc", b"\xdb\xdd"
TUNSETIFF, IFF_TUN, IFF_NO_PI = 0x400454CA, 1, 0x1000


def device():
    tun = os.open("/dev/net/tun", os.O_RDWR)
    fcntl.ioctl(tun, TUNSETIFF, struct.pack("16sH", b"bsdudp0", IFF_TUN | IFF_NO_PI))
    for words in ("addr add 10.0.0.2/24 dev bsdudp0", "link set bsdudp0 up mtu 1500"):
        subprocess.run(["ip", *words.split()], check=True)
    return tun


def framed(packet):
    return END + packet.replace(ESC, ESCAPED_ESC).replace(END, ESCAPED_END) + END


def packets(came):
    """Returns the whole packets in the bytes that arrived, and the beginning of the next one."""
    *whole, rest = came.split(END)
    return [it.replace(ESCAPED_END, END).replace(ESCAPED_ESC, ESC) for it in whole if it], rest


def main():
    parser = command_line.parser(__doc__)
    program = command_line.with_command(parser, "PROGRAM", "the program with its words").command
    tun, came, ending = device(), b"", []
    signal.signal(signal.SIGTERM, lambda *_: ending.append(1))
    with subprocess.Popen(program, stdin=subprocess.PIPE, stdout=subprocess.PIPE, bufsize=0) as board:
        while not ending:
            for ready in select.select([tun, board.stdout], [], [], 0.1)[0]:
                if ready is tun:
                    board.stdin.write(framed(os.read(tun, 65536)))
                    continue
                piece = os.read(board.stdout.fileno(), 65536)
                if not piece:
                    return 1
                whole, came = packets(came + piece)
                for packet in whole:
                    os.write(tun, packet)
        board.stdin.write(framed(b"\x04"))
        board.stdin.flush()
        return board.wait(60)


sys.exit(main())
