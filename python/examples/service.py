"""A UDP service on a TUN device of Linux: what comes to port 7 goes back. It needs the right to make the device, as root has:

    python3 service.py 10.0.0.1 &
    ip addr add 10.0.0.2/24 dev bsdudp0; ip link set bsdudp0 up mtu 1500
    echo hi | nc -u -w1 10.0.0.1 7
"""
import argparse
import fcntl
import os
import select
import struct
import time

import bsdudp

TUNSETIFF, IFF_TUN, IFF_NO_PI = 0x400454CA, 1, 0x1000

parser = argparse.ArgumentParser(description=__doc__, formatter_class=argparse.RawDescriptionHelpFormatter)
parser.add_argument("address", help="the service's, as 10.0.0.1")
parser.add_argument("left", nargs="?", type=int, default=-1, help="it ends after so many datagrams")
words = parser.parse_args()
left = words.left
device = os.open("/dev/net/tun", os.O_RDWR)
fcntl.ioctl(device, TUNSETIFF, struct.pack("16sH", b"bsdudp0", IFF_TUN | IFF_NO_PI))
ticked = time.monotonic()
with bsdudp.Stack(words.address) as stack:
    echo = stack.socket()
    echo.bind(("", 7))
    while left:
        readable, _, _ = select.select([device], [], [], 0.1)
        if readable:
            stack.rx(os.read(device, 65535))
        while time.monotonic() - ticked > 0.5:
            stack.tick()
            ticked += 0.5
        while left and echo.waiting:
            echo.sendto(*echo.recvfrom())
            left -= 1
        for packet in stack.packets():
            os.write(device, packet)
