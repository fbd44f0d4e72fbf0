"""Calls of the package for `mypy --strict`. The calls in the first functions are right. Each of the others has the
error that its comment names; a comment without an error is an error too. This file isn't run."""
import array
import ipaddress
import random
import socket
from typing import List, Optional, Tuple

import bsdudp


def right(stack: bsdudp.Stack, it: bsdudp.Socket, buffer: bytearray) -> None:
    it.bind(("", 7))
    port: int = it.bind_random(ipaddress.IPv4Address("10.0.0.1"), 7, 9, random.SystemRandom())
    it.connect((ipaddress.IPv4Address("10.0.0.2"), 7))
    sent: int = it.sendto(b"hi", ("10.0.0.2", 7)) + it.sendto(array.array("B", [1]), 0, ("10.0.0.2", 7))
    sent += it.send(memoryview(b"hi"))
    data, sender = it.recvfrom()
    taken: Tuple[bytes, Tuple[str, int]] = (data, sender)
    came: Tuple[int, Tuple[str, int]] = it.recvfrom_into(buffer, 10)
    came_too: int = it.recv_into(memoryview(buffer))
    flags: int = it.recvmsg(100)[2]
    refused: int = it.connect_ex(("10.0.0.2", 7))
    it.setsockopt(socket.SOL_SOCKET, socket.SO_BROADCAST, True)
    it.settimeout(0)
    it.setblocking(False)
    packet: Optional[bsdudp.Packet] = stack.tx()
    fate: bsdudp.Fate = stack.rx(packet or b"")
    cause: Optional[str] = fate.cause
    is_kept: bool = fate.kind == "kept"
    readers: List[bsdudp.Socket] = list(fate.got + fate.lost)
    held: List[bsdudp.UnfinishedDatagram] = stack.unfinished
    total: int = stack.counters["ip.total"]
    results: List[int] = bsdudp.sweep(lambda seed: seed * 2, range(3))
    results = bsdudp.sweep(lambda seed: seed * 2, range(3), 4)
    number: int = it.descriptor
    twin: bsdudp.Stack = stack.copy()
    copied: bsdudp.Socket = twin.sockets[it.descriptor]


def right_of_a_wire(stack: bsdudp.Stack) -> None:
    wire = bsdudp.Wire([stack], loss=lambda sent: sent.number == 3, pcap="wire.pcap")
    wire.loss = 0.5
    wire.loss = bsdudp.Bursts("0.01", 5)
    wire.sender(stack).delay = (1, 2)
    wire.on_loss = lambda sent: print(sent.packet)
    wire.pcap = None
    wire.advance(500, lambda: None)
    waits: List[int] = [way.wait for way in wire.under_way]
    other: bsdudp.Wire = wire.copy()
    host: bsdudp.Host = bsdudp.Host().copy()


def wrong_of_a_wire(stack: bsdudp.Stack, wire: bsdudp.Wire) -> None:
    wire.losss = 0.5  # type: ignore[attr-defined]
    wire.stacks = (stack,)  # type: ignore[misc]
    wire.loss = None  # type: ignore[assignment]
    wire.on_loss = 3  # type: ignore[assignment]
    wire.advance(0.5)  # type: ignore[arg-type]
    stack.socket().descriptor = 3  # type: ignore[misc]


def right_of_a_host(host: bsdudp.Host) -> None:
    frame: Optional[bsdudp.Frame] = host.transmit()
    fate: Optional[bsdudp.Fate] = host.receive(frame or memoryview(b""))
    known: List[Optional[str]] = [near.mac for near in host.neighbours]
    echoes: int = host.tallies.echoes
    machine: bsdudp.Stack = bsdudp.Host("10.0.0.1", b"123456", gateway=ipaddress.IPv4Address("10.0.0.2"))


def wrong_of_a_host(host: bsdudp.Host) -> None:
    host.receive("a")  # type: ignore[arg-type]
    bsdudp.Host(mac=2)  # type: ignore[arg-type]
    text: str = host.neighbours[0].mac  # type: ignore[assignment]


def wrong(stack: bsdudp.Stack, it: bsdudp.Socket) -> None:
    it.sendto("a", ("10.0.0.2", 7))  # type: ignore[call-overload]
    it.sendto(b"a", "10.0.0.2")  # type: ignore[call-overload]
    it.sendto(b"a", ("10.0.0.2", "7"))  # type: ignore[arg-type]
    it.sendto(b"a")  # type: ignore[call-overload]
    it.send("a")  # type: ignore[arg-type]
    it.bind("10.0.0.2")  # type: ignore[arg-type]
    it.bind_random("", 7, 9, 3)  # type: ignore[arg-type]
    it.setsockopt(0, 0, "512")  # type: ignore[arg-type]
    it.connect((7, 7))  # type: ignore[arg-type]
    it.recv("7")  # type: ignore[arg-type]
    it.settimeout("0")  # type: ignore[arg-type]
    stack.rx("a")  # type: ignore[arg-type]
    stack.rx(7)  # type: ignore[arg-type]
    stack.tick(0.5)  # type: ignore[arg-type]
    bsdudp.Stack(mtu="1500")  # type: ignore[arg-type]
    bsdudp.Wire([stack], delay=3)  # type: ignore[arg-type]
    bsdudp.Wire([stack], loss=None)  # type: ignore[arg-type]
    bsdudp.sweep(lambda seed: seed, range(3), client=0.7)  # type: ignore[arg-type]
    text: str = it.recv()  # type: ignore[assignment]
    stack.rx(b"").kind == "lost"  # type: ignore[comparison-overlap]
