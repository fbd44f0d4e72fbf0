"""Step 5: fragments out."""
from __future__ import annotations

import itertools
from dataclasses import replace

from lab import Header, Host
from step4 import put_ip

identifications = itertools.count(1)


def ip_output(host: Host, it: Header, mtu: int) -> None:
    size = len(it.data)
    most = size if size + 20 <= mtu else (mtu - 20) // 8 * 8
    identification = next(identifications) % 0x10000
    for begin in range(0, size, most):
        data = it.data[begin : begin + most]
        part = replace(it, identification=identification, offset=begin, more=begin + most < size, data=data)
        host.transmit(put_ip(part) + data)
