"""The address of a device, which is set before any case is made: `_addresses` reads it when it's imported."""
from __future__ import annotations

TARGET = "BSDUDP_CONFORM_TARGET"
