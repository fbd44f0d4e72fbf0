"""Step 3: demultiplexing. Sources: RFC 768, RFC 1122 4.1."""
from __future__ import annotations

from lab import HOST, Header, Host  # noqa: F401
from step2 import udp_sum_holds  # noqa: F401


def udp_receive(host: Host, it: Header) -> bool:
    """A UDP datagram arrived: it.data, with the UDP header.

    - Drop it (return True) if it has less than 8 bytes, if its UDP length is below 8 or above len(it.data), or if its
      checksum doesn't hold (udp_sum_holds). Bytes after the UDP length aren't the user's.
    - A socket of host.sockets matches if it has the destination port, and isn't connected, or is connected to the
      sender.
    - If it.destination is HOST, host.deliver it to one socket: a connected one that matches, otherwise the youngest.
    - If it's a broadcast, deliver it to each socket that matches.

    Returns False if no socket matches: then the host sends Port Unreachable."""
    return True
