"""Random settings of a host on an Ethernet, against a rule that is written here by RFC 1122, section 3.2.1.3, RFC 950 and
RFC 3021, with Python's `ipaddress`: the C library, the package and `bsdplay` refuse a host exactly if a setting is
wrong, and with the same text, whose first word is the first wrong setting."""
import ctypes
import ipaddress
import random
import re

from tests.bsdplay.runs import printed, same
from tests.python.package import bsdudp

HOSTS, SCRIPTED = 20_000, 2_000
MASKS = [int(ipaddress.IPv4Network(f"0.0.0.0/{ones}").netmask) for ones in range(33)]
NO_HOSTS = [ipaddress.IPv4Network(it) for it in ("0.0.0.0/8", "127.0.0.0/8", "224.0.0.0/4", "240.0.0.0/4")]
OTHERS = [0, 1, 0x0A000000, 0x0A0000FF, 0x7F000001, 0xE0000001, 0xFFFFFFFF, 0x00FFFFFF, 0xDFFFFFFF, 0xC0A80001]


def is_host(ip):
    return not any(ipaddress.IPv4Address(ip) in it for it in NO_HOSTS)


def wrong_settings(of):
    """Returns the names of the settings that are wrong, in the order of the checks. Without a mask, the settings that
    depend on it aren't judged."""
    first = bytes.fromhex(of["mac"].replace(":", ""))
    found = ["mtu"] * (not 68 <= of["mtu"] <= 1500) + ["mac"] * (first[0] % 2 == 1 or not any(first))
    found += ["addr"] * (not is_host(of["addr"]))
    if of["mask"] not in MASKS[:31]:
        return [*found, "mask"]
    network = ipaddress.IPv4Network((of["addr"], MASKS.index(of["mask"])), strict=False)
    found += ["mask"] * (not is_host(network.broadcast_address))
    ends = [int(network.network_address), int(network.broadcast_address)]
    found += ["addr"] * (of["addr"] in ends) + ["bcast"] * (of["bcast"] not in (None, ends[1]))
    gateway = of["gateway"]
    is_neighbour = gateway is None or ipaddress.IPv4Address(gateway) in network and gateway not in [*ends, of["addr"]]
    return found + ["gateway"] * (not is_neighbour)


def settings_by(rng):
    """Returns settings of which most are right."""
    mask = rng.choice(MASKS[8:31])
    addr = rng.randrange(1 << 24, 224 << 24) if rng.randrange(2) else 0x0A000000 | rng.randrange(1 << 9)
    last = addr | ~mask & 0xFFFFFFFF
    near = rng.choice([addr & mask, last, addr, addr ^ 1, addr & mask | 1, last - 1, addr ^ 1 << rng.randrange(32)])
    it = {
        "mac": "02:00:00:00:00:07",
        "addr": addr,
        "mask": mask,
        "bcast": rng.choice([None, None, last]),
        "gateway": rng.choice([None, addr & mask | 1, near]),
        "mtu": 1500,
    }
    for _ in range(rng.choice([0, 0, 1, 1, 2])):
        name = rng.choice(list(it))
        it[name] = {
            "mac": rng.choice(["00:00:00:00:00:00", "01:00:5e:00:00:01", "ff:ff:ff:ff:ff:ff", "00:00:00:00:01:00"]),
            "addr": rng.choice([*OTHERS, addr & mask, last]),
            "mask": rng.choice([*MASKS, 0xFF00FF00, 0x00FFFFFF, 0xFFFFFF01, rng.randrange(1 << 32)]),
            "bcast": rng.choice([*OTHERS[1:], last ^ 1, addr, addr & mask or 1]),
            "gateway": rng.choice([*OTHERS[1:], near or 1]),
            "mtu": rng.choice([0, 67, 68, 69, 1499, 1500, 1501, 4352, 65535]),
        }[name]
    it["gateway"] = it["gateway"] or None  # 0 stands for none in C
    return it


def refusal_of(of):
    """Returns the text with which the C library refuses a host, or an empty one if it boots."""
    library = ctypes.CDLL(bsdudp._library.LIBRARY._library._name)
    library.bsdudp_boot_strerror.restype = ctypes.c_char_p
    config = bsdudp._library.Config(of["addr"], of["bcast"] or 0, 8, 0, of["mtu"], 1)
    mac = (ctypes.c_uint8 * 6)(*bytes.fromhex(of["mac"].replace(":", "")))
    link = bsdudp._library.Link(mac, of["mask"], of["gateway"] or 0, False)
    host = bsdudp._library.Handle()
    settings = ctypes.byref(config), ctypes.byref(link)
    answer = library.bsdudp_ether_boot(ctypes.byref(host), *settings)
    library.bsdudp_end(ctypes.byref(host))
    assert answer in (0, -22), f"{of}: {answer}"
    return "" if answer == 0 else library.bsdudp_boot_strerror(answer, *settings).decode()


def refusal_in_python(of):
    """Returns the package's text, without the value. The package checks the type and the range of an MTU itself."""
    named = {it: of[it] for it in ("mac", "mtu")}
    addresses = {it: of[it] for it in ("addr", "mask", "bcast", "gateway") if of[it] is not None}
    named |= {name: ipaddress.IPv4Address(it) for name, it in addresses.items()}
    try:
        with bsdudp.Host(**named, mbufs=8, clusters=0):
            return ""
    except ValueError as fault:
        return re.sub(r" \((\w+) is .*\)$|, not \d+$", "", str(fault))


def line_of(at, of):
    """Returns the line of a script with these settings."""
    given = {it: ipaddress.IPv4Address(of[it]) for it in ("mask", "gateway", "addr", "bcast") if of[it] is not None}
    words = [f"host h{at} ether mac {of['mac']}"] + [f"{it} {given[it]}" for it in ("mask", "gateway") if it in given]
    words += [f"--mtu {of['mtu']}"] + [f"--{it} {given[it]}" for it in ("addr", "bcast") if it in given]
    return " ".join(words)


def test_the_first_wrong_setting_is_named_and_right_ones_boot(bsdplay):
    rng = random.Random(1122)
    cases = [settings_by(rng) for _ in range(HOSTS)]
    texts = [refusal_of(it) for it in cases]
    for of, text in zip(cases, texts):
        same(f"{of}: the setting", text.partition(" ")[0], (wrong_settings(of) or [""])[0])
    kinds = {re.sub(r" on an Ethernet$", "", it) for it in texts}
    assert len(kinds) == 10, kinds  # nine faults, and none
    for of, text in list(zip(cases, texts))[:SCRIPTED]:
        same(f"{of}: Python's text", refusal_in_python(of), re.sub(r" on an Ethernet$", "", text))
    refused = [(of, text) for of, text in zip(cases, texts) if text][:SCRIPTED]
    said = printed(bsdplay, [line_of(at, of) for at, (of, _) in enumerate(refused)])
    for at, (of, text) in enumerate(refused):
        same(f"{of}: bsdplay's line", said[at], f"-:{at + 1}: {text}")
    booted = [of for of, text in zip(cases, texts) if not text][:200]
    for of in booted:
        same(f"{of}: bsdplay", printed(bsdplay, [line_of(0, of)])[-1].rpartition(" => ")[2], "ok")
