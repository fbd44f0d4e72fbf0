#!/usr/bin/env python3
"""Runs a command in a network namespace with an interface w0, at whose other end, in another
namespace, Linux has 10.0.0.1/24 and a UDP echo service on port 7."""
import contextlib
import ctypes
import os
import pathlib
import socket
import subprocess
import sys
import threading

sys.dont_write_bytecode = True
sys.path.insert(0, str(pathlib.Path(__file__).resolve().parent.parent.parent))
from tools import command_line  # noqa: E402

CLONE_NEWNET = 0x40000000


def run(*words):
    subprocess.run(words, check=True)


def unshare():
    """Gives this thread a namespace of its own, and the programs that it starts."""
    if ctypes.CDLL(None, use_errno=True).unshare(CLONE_NEWNET):
        raise OSError(ctypes.get_errno(), "no network namespace")


def quiet(interface):
    pathlib.Path(f"/proc/sys/net/ipv6/conf/{interface}/disable_ipv6").write_text("1", encoding="ascii")


def other_end():
    """Makes both interfaces in this namespace. Returns the socket of the service."""
    run("ip", "link", "add", "w0", "type", "veth", "peer", "name", "w1")
    quiet("w1")
    run("ip", "link", "set", "lo", "up")
    run("ip", "addr", "add", "10.0.0.1/24", "broadcast", "+", "dev", "w1")
    run("ip", "link", "set", "w1", "up", "mtu", "65535", "txqueuelen", "1000")
    run("ip", "route", "add", "default", "via", "10.0.0.2", "dev", "w1")
    it = socket.socket(socket.AF_INET, socket.SOCK_DGRAM)
    it.setsockopt(socket.SOL_SOCKET, socket.SO_BROADCAST, 1)
    it.bind(("0.0.0.0", 7))
    return it


def echo(it):
    while True:
        data, sender = it.recvfrom(65536)
        with contextlib.suppress(OSError):
            it.sendto(data, sender)


def main():
    words = command_line.with_command(command_line.parser(__doc__), "COMMAND", "the command with its words").command
    unshare()
    there = os.open("/proc/thread-self/ns/net", os.O_RDONLY)
    threading.Thread(target=echo, args=[other_end()], daemon=True).start()
    unshare()
    run("nsenter", f"--net=/proc/{os.getpid()}/fd/{there}", "ip", "link", "set", "w0", "netns", str(os.getpid()))
    quiet("w0")
    run("ip", "link", "set", "w0", "up", "mtu", "65535", "txqueuelen", "1000")
    return subprocess.run(words, check=False).returncode


sys.exit(main())
