"""Step 3: demultiplexing."""
from __future__ import annotations

import struct

from lab import HOST, Header, Host
from step2 import udp_sum_holds


def udp_receive(host: Host, it: Header) -> bool:
    if len(it.data) < 8:
        return True
    source_port, port, length = struct.unpack(">HHH", it.data[:6])
    if not 8 <= length <= len(it.data) or not udp_sum_holds(it, length):
        return True
    sender = (it.source, source_port)
    found = [one for one in host.sockets if one.port == port and one.peer in (None, sender)]
    if it.destination == HOST:
        found = sorted(found, key=lambda one: (one.peer is not None, one.number))[-1:]
    for one in found:
        host.deliver(one, it.source, source_port, it.data[8:length])
    return bool(found)
