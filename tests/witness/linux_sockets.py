"""Plays lines of sockets (docs/scripts.md, "Calls") on Linux's sockets, in a network namespace with only the loopback:
10.0.0.1 and 127.0.0.1 are this host's, and 10.0.0.0/24 is on its link. Each line of standard input gets one reply, in
which an error has only its name, for example `error EADDRINUSE`."""
from __future__ import annotations

import errno
import socket
import subprocess
import sys

LINK = [
    "link set lo up",
    "address add 10.0.0.1/32 dev lo",
    "route add 10.0.0.0/24 dev lo",
    "route add broadcast 10.0.0.255 dev lo table local",
]
DESCRIPTORS = range(3, 67)
sockets: dict[int, socket.socket] = {}


def opened() -> str:
    fd = min(it for it in DESCRIPTORS if it not in sockets)
    sockets[fd] = socket.socket(socket.AF_INET, socket.SOCK_DGRAM | socket.SOCK_NONBLOCK)
    return f"ok {fd}"


def play(its: socket.socket, words: list[str]) -> str:
    """Returns the reply to a call of an open socket. Errors of earlier sends, which ICMP brought, are cleared."""
    its.getsockopt(socket.SOL_SOCKET, socket.SO_ERROR)
    match words:
        case ["bind", ip, port]:
            its.bind((ip, int(port)))
        case ["connect", ip, port]:
            its.connect((ip, int(port)))
        case ["sendto", ip, port, data]:
            return f"ok {its.sendto(bytes.fromhex(data.strip('-')), (ip, int(port)))}"
        case ["send", data]:
            return f"ok {its.send(bytes.fromhex(data.strip('-')))}"
        case ["recvfrom", count]:
            data, (ip, port) = its.recvfrom(int(count))
            return f"from {ip} {port} {data.hex() or '-'}"
        case ["setsockopt", "broadcast", value]:
            its.setsockopt(socket.SOL_SOCKET, socket.SO_BROADCAST, int(value))
    return "ok"


def reply(name: str, fd: int = 0, *words: str) -> str:
    if name == "socket":
        return opened()
    if fd not in sockets:
        return "error EBADF"
    if name == "close":
        sockets.pop(fd).close()
        return "ok"
    try:
        return play(sockets[fd], [name, *words])
    except BlockingIOError:
        return "error EWOULDBLOCK"
    except OSError as why:
        return f"error {errno.errorcode[why.errno or 0]}"


def main() -> None:
    for words in LINK:
        subprocess.run(["ip", *words.split(" ")], check=True)
    for line in sys.stdin:
        name, *rest = line.split()
        print(reply(name, *map(int, rest[:1]), *rest[1:]), flush=True)


if __name__ == "__main__":
    main()
