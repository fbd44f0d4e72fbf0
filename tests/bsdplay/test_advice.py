"""What bsdplay prints for lines that can't be read: for each it prints the error, and changes nothing. Then a line of
each form that `bsdplay --help` lists, none of which is an error; scripts that begin with a byte order mark; lines that
begin with a time; hosts on an Ethernet; and scripts of two hosts, in which the lines below `carry` say what happened
to each packet, and those below a host's line what the host did."""
import json
import re

import pytest

from tests.bsdplay.runs import printed, run, same

HOSTS = ["host a --addr 10.0.0.1", "host b --addr 10.0.0.2", "wire a b"]


def rows(table):
    """Parametrizes a test by the rows of a table, which have names."""
    return pytest.mark.parametrize("name", table)


# ---- lines that can't be read --------------------------------------------------------------------------------------

# Lines of a script for one host, and the error for each.
MACHINE = {
    "sokcet": "unknown command `sokcet` (`socket`?)",
    "Socket": "unknown command `Socket` (`socket`?)",
    "sock": "unknown command `sock` (`socket`?)",
    "recv 3 100": "unknown command `recv` (`recvfrom`?)",
    "recvform 3 100": "unknown command `recvform` (`recvfrom`?)",
    "sendot 3 10.0.0.2 7 -": "unknown command `sendot` (`sendto`?)",
    "setsokopt 3 broadcast 1": "unknown command `setsokopt` (`setsockopt`?)",
    "quit": "unknown command `quit`",
    "carry": "`carry` needs hosts: begin the script with `host NAME`",
    "abcdefghijklmnopqrstuvwxyzabcdefgh": "unknown command `abcdefghijklmnopqrstuvwxyzabcdef..`",
    "bind 3 localhost 7": "expected ADDR (such as 10.0.0.2), got `localhost`: `bind FD ADDR PORT`",
    "bind 3 10.0.0.1 70000": "expected PORT (0 to 65535), got `70000`: `bind FD ADDR PORT`",
    "bind 3 10.0.0.1 07": "expected PORT (0 to 65535), got `07`: `bind FD ADDR PORT`",
    "bind 10.0.0.1 7": "expected FD (0 to 4294967295), got `10.0.0.1`: `bind FD ADDR PORT`",
    "connect 3 10.0.0.1": "missing PORT (0 to 65535): `connect FD ADDR PORT`",
    "sendto 3 10.0.0.2 7": "missing BYTES (digits, \"text\" or @N): `sendto FD ADDR PORT BYTES`",
    "recvfrom 3": "missing LEN (1 to 65535): `recvfrom FD LEN`",
    "recvfrom 3 0": "expected LEN (1 to 65535), got `0`: `recvfrom FD LEN`",
    "recvfrom 3 9 9": "unexpected `9`: `recvfrom FD LEN`",
    "setsockopt 3 nodelay 1": "expected OPT (broadcast, reuseport or rcvbuf), got `nodelay`: `setsockopt FD OPT ON`",
    "setsockopt 3 broadcast on": "expected ON (1 or 0), got `on`: `setsockopt FD OPT ON`",
    "setsockopt 3 broadcast 2": "expected ON (1 or 0), got `2`: `setsockopt FD OPT ON`",
    "setsockopt 3 rcvbuf": "missing N (1 to 65535): `setsockopt FD rcvbuf N`",
    "setsockopt 3 rcvbuf 0": "expected N (1 to 65535), got `0`: `setsockopt FD rcvbuf N`",
    "setsockopt 3 rcvbuf 65536": "expected N (1 to 65535), got `65536`: `setsockopt FD rcvbuf N`",
    "setsockopt 3 rcvbuf 1 1": "unexpected `1`: `setsockopt FD rcvbuf N`",
    "setsockopt x rcvbuf 1": "expected FD (0 to 4294967295), got `x`: `setsockopt FD rcvbuf N`",
    "close": "missing FD (0 to 4294967295): `close FD`",
    "socket 3": "unexpected `3`: `socket`",
    "tick 0": "expected N (1 to 65535), got `0`: `tick [N]`",
    "tick 65536": "expected N (1 to 65535), got `65536`: `tick [N]`",
    "show": "missing WHAT (sockets, unfinished, queue, counters or pool): `show WHAT`",
    "show socket": "expected WHAT (sockets, unfinished, queue, counters or pool), got `socket`: `show WHAT`",
    "=> ok": "missing command before `=>`",
    **dict.fromkeys(
        (f"rx pcap{it}" for it in ("", " a 0-3", " a 2-1", " a 1-", " a -1", " a 1", " a 01-2", " a 1-4294967296",
                                   " a ticks 1-2", " a ticks ticks", " a 1-2 ticks x")),
        "expected `rx pcap FILE [N-M] [ticks]`",
    ),
}  # fmt: skip
# Lines of a script for two hosts, and the error for each.
WIRE = {
    "socket": "`socket` needs a host: `NAME: socket`",
    "bind 3 0.0.0.0 7": "`bind` needs a host: `NAME: bind FD ADDR PORT`",
    "cary": "unknown command `cary` (`carry`?)",
    "carry al": "expected `carry [all] [N]`",
    "drop": "expected `drop PLACE`",
    "tick 0": "expected N (1 to 65535), got `0`: `tick [N]`",
    "show sockets": "expected `show wire`",
    "frame 00": "`frame` needs a host: `NAME: frame BYTES`",
    "a: frame": "missing BYTES (digits, \"text\" or @N): `frame BYTES`",
    "a: frame 00": "this needs a host on an Ethernet: `host NAME ether ..`",
    "a: show link": "this needs a host on an Ethernet: `host NAME ether ..`",
    "a: error x": "expected FD (0 to 4294967295), got `x`: `error FD`",
    "a: show wire": "expected WHAT (sockets, unfinished, queue, counters, pool, neighbours, link), got `wire`: `show WHAT`",
    "a: sokcet": "unknown command `sokcet` (`socket`?)",
    "a: carry": "`carry` needs hosts: begin the script with `host NAME`",
    "a: setsockopt 3 rcvbuf on": "expected N (1 to 65535), got `on`: `setsockopt FD rcvbuf N`",
    "setsockopt 3 rcvbuf 1": "`setsockopt` needs a host: `NAME: setsockopt FD OPT ON`",
    "a: close": "missing FD (0 to 4294967295): `close FD`",
    "a: rx pcap a.pcap": "`rx pcap` needs a script without hosts",
    "a: --mtu 576": "a host's settings must be in its `host` line",
}


def advice(program, before, line):
    """Returns what is printed for a line after the lines in `before`."""
    return printed(program, [*before, line])[len(before) :]


@pytest.mark.parametrize("line", MACHINE)
def test_a_wrong_line_of_one_machine_is_explained(line, bsdplay):
    same(line, advice(bsdplay, [], line), [f"-:1: {MACHINE[line]}"])


@pytest.mark.parametrize("line", WIRE)
def test_a_wrong_line_of_two_hosts_is_explained(line, bsdplay):
    same(line, advice(bsdplay, HOSTS, line), [f"-:4: {WIRE[line]}"])


@pytest.mark.parametrize("before, table", [([], MACHINE), (HOSTS, WIRE)], ids=["one machine", "two hosts"])
def test_wrong_lines_do_nothing(before, table, bsdplay):
    """All of them in one script: only one line is printed for each."""
    wanted = [f"-:{number}: {it}" for number, it in enumerate(table.values(), len(before) + 1)]
    same(list(table), printed(bsdplay, [*before, *table])[len(before) :], wanted)


# ---- forms ---------------------------------------------------------------------------------------------------------

# Values for the words of a form.
WORDS = {
    "FD": "9", "ADDR": "10.0.0.2", "PORT": "7", "BYTES": "00", "LEN": "1", "OPT": "broadcast", "ON": "1",
    "WHAT": "pool", "N": "2", "FILE": "none.pcap", "N-M": "1-2", "NAME": "a", "CHANCE": "10%", "A-B": "0-1",
    "PLACE": "0", "..": "b", "--SETTING": "--addr", "VALUE": "10.0.0.9", "ADDR:PORT": "10.0.0.2:7", "FIELDS": "df id 2",
    "LINK": "probe",
}  # fmt: skip
ANSWERED = re.compile(
    r"unknown |unexpected |expected |missing |needs a host|must be "
)


def instances(form):
    """Returns lines of a form: with its optional words, and without them."""
    for one in form.split(" or "):
        for text in {re.sub(r" \[[^]]*\]", "", one), re.sub(r"\[([^]]*)\]", r"\1", one)}:
            yield " ".join(WORDS.get(word, word) for word in text.split())


@pytest.fixture
def forms(bsdplay):
    """Returns the forms of lines for one host, and of those for several hosts, from the program's help."""
    found, into = ([], []), None
    for line in run(bsdplay, "--help").stdout.decode().splitlines():
        if line.startswith("Lines of a host"):
            into = None
        elif line.startswith("Lines"):
            into = found[line.startswith("Lines of many")]
        elif into is not None and line.startswith("  "):
            into.append(line.strip())
    return dict(zip(("one machine", "two hosts"), found))


@pytest.mark.parametrize("kind, before", [("one machine", []), ("two hosts", HOSTS)], ids=["one machine", "two hosts"])
def test_no_line_of_a_form_is_called_wrong(kind, before, forms, bsdplay):
    assert len(forms[kind]) >= 14, f"the help has few forms: {forms[kind]}"
    lines = [*before, *(line for form in forms[kind] for line in instances(form))]
    said = [(re.match(r"-:(\d+):", it), it) for it in printed(bsdplay, lines)]
    same("lines of a form", [(lines[int(n[1]) - 1], it) for n, it in said if n and ANSWERED.search(it)], [])


# ---- byte order marks ----------------------------------------------------------------------------------------------

MARK = "\ufeff"
MARKED = ["socket\nbind 3 0.0.0.0 x\n", "host a\na: socket\n", "# c\n\nhost a\nwire a\n", "\n"]


@pytest.mark.parametrize("script", MARKED)
def test_a_byte_order_mark_in_front_changes_nothing(script, bsdplay):
    same(script, run(bsdplay, script=MARK + script).stdout, run(bsdplay, script=script).stdout)


def test_a_byte_order_mark_in_the_second_line_is_part_of_a_word(bsdplay):
    same("socket", printed(bsdplay, ["", f"{MARK}socket"]), [f"-:2: unknown command `{MARK}socket`"])


# ---- hosts that can't join -----------------------------------------------------------------------------------------

# The error for a third host after 10.0.0.1 and 10.0.0.2.
JOINS = {
    "host c --addr 10.0.0.2": "--addr (default 10.0.0.1) must differ from each other host's --addr and --bcast",
    "host c --addr 10.0.0.255": "--addr (default 10.0.0.1) must differ from each other host's --addr and --bcast",
    "host c --addr 10.0.0.3 --mtu 67": "--mtu must be 68 to 4352, --addr a host's address, --bcast another address",
    "host c --addr 10.0.0.3 --mbufs 0": "--mbufs must be 1 to 65535, --clusters 0 to 4096",
    "host c ether --addr 10.0.0.3": "all hosts must be on an Ethernet, or none",
}


@pytest.mark.parametrize("line", JOINS)
def test_a_host_that_cannot_join_is_explained(line, bsdplay):
    same(line, advice(bsdplay, HOSTS[:2], line), [f"-:3: {JOINS[line]}"])


# Lines of many hosts where they can't be: the lines before, the line, and the rule.
OUT_OF_PLACE = {
    "a host after a call": (["socket"], "host a", "`host` needs hosts: begin the script"),
    "a wire of one machine": (["socket"], "wire a b", "`wire` needs hosts: begin the script"),
    "the same address": (["host a"], "host b", "--addr (default 10.0.0.1) must differ"),
    "a host after the wire": (["host a", "wire a"], "host b --addr 10.0.0.2", "define hosts before `wire`"),
    "carry without a wire": (["host a"], "carry", "join the hosts with `wire NAME ..`"),
    "a wire of some": (["host a", "host b --addr 10.0.0.2"], "wire a", "`wire` must name each host once"),
}


@pytest.mark.parametrize("name", OUT_OF_PLACE)
def test_a_message_about_hosts_says_the_rule(name, bsdplay):
    before, line, rule = OUT_OF_PLACE[name]
    said = printed(bsdplay, [*before, line])[-1]
    assert said.startswith(f"-:{len(before) + 1}: ") and rule in said, said


def test_64_hosts_can_join(bsdplay):
    lines = [f"host h{it} --addr 10.0.0.{it}" for it in range(1, 66)]
    same("the 65th host", advice(bsdplay, lines[:64], lines[64]), ["-:65: at most 64 hosts are possible"])


# ---- hosts on an Ethernet ------------------------------------------------------------------------------------------

LINK = "host a ether --addr 10.0.0.1"
MASK = "mask must be ones followed by zeros, at most 30 ones"
GATEWAY = "gateway must be a neighbour: another host's address on mask's network"
# The lines of one script, and the error or the reply for each.
ETHER = {
    LINK: "ok",
    "host b ether mac 02:00:00:00:00:01 --addr 10.0.0.2": "another host has this hardware address",
    "host b ether mac 03:00:00:00:00:02": "mac must not be a group address: its first byte is odd",
    "host b ether mac 00:00:00:00:00:00": "mac must not be 0",
    "host b ether mac 2:0:0:0:0:2": "`mac` must be a host's hardware address, such as 02:00:00:00:00:01",
    "host b ether mac": "`mac` must be a host's hardware address, such as 02:00:00:00:00:01",
    "host b ether mask 24": "`mask` must be ones, then zeros, such as 255.255.255.0",
    "host b ether mask 255.0.255.0": MASK,
    "host b ether mask 255.255.255.254": MASK,
    "host b ether mask 0.0.0.0": "mask must have more ones: its network's last address is in 127/8 or above 223/8",
    "host b ether mask 255.255.0.0 --addr 10.0.0.0": "addr must not be the first or last address of mask's network",
    "host b ether --addr 127.0.0.1": "addr must be 1.0.0.0 to 223.255.255.255, and not in 127/8",
    "host b ether --addr 10.0.0.2 --bcast 10.0.0.127": "bcast must be the last address of mask's network",
    "host b ether gateway 10.0.1.1": GATEWAY,
    "host b ether gateway 10.0.0.0 --addr 10.0.0.2": GATEWAY,
    "host b ether gateway x": "`gateway` must be an address, such as 10.0.0.254",
    "host b ether lladdr x": "expected `mac M`, `mask M`, `gateway A` or `probe`, then settings",
    "host b ether --mtu 1501": "mtu must be 68 to 1500 on an Ethernet",
    "host b --addr 10.0.0.2": "all hosts must be on an Ethernet, or none",
    "host b ether gateway 10.1.1.1 probe mask 255.0.0.0 --addr 10.0.0.2": "ok",
    "wire a b": "ok",
    "a: rx 00": "a host on an Ethernet needs frames: use `frame BYTES` or `carry`",
    'a: rx udp 10.0.0.2:5 > 10.0.0.1:7 "x"': "a host on an Ethernet needs frames: use `frame BYTES` or `carry`",
    "a: tx": "a host on an Ethernet needs frames: use `frame BYTES` or `carry`",
    "a: frame zz": "expected `frame BYTES`",
    "a: tick 0": "expected N (1 to 65535), got `0`: `tick [N]`",
    "a: tick": "ok",
    "a: frame -": "ok counted ignored",
    "a: show link": "uses its address",
    "b: show link": "probes for its address",
    "a: error 3": "error 9 EBADF",
}
ETHER_LINES = list(ETHER)
# Next hops that no host has, to which a host sends packets, and the lines below `show neighbours` then. The host keeps
# eight packets.
ASKED = "is unresolved, 1 of 5 requests sent"
HELD = {
    "none": ([], []),
    "one packet": (["10.0.0.9"], [f"10.0.0.9 {ASKED}, 1 packet waits"]),
    "nine packets": (
        ["10.0.0.8", *["10.0.0.9"] * 8],
        [f"10.0.0.8 {ASKED}, 0 packets wait", f"10.0.0.9 {ASKED}, 8 packets wait"],
    ),
}


@pytest.mark.parametrize("line", ETHER)
def test_a_line_of_hosts_on_an_ethernet_has_its_reply(line, bsdplay):
    said = [it for it in printed(bsdplay, ETHER_LINES) if it[:1] != " "]
    same("the number of replies", len(said), len(ETHER))
    at, wanted = ETHER_LINES.index(line), ETHER[line]
    is_so = said[at].endswith(f" => {wanted}") or said[at] == f"-:{at + 1}: {wanted}"
    assert is_so, f"{line}: {said[at]}, and not {wanted}"


@rows(HELD)
def test_show_neighbours_counts_the_packets_that_wait(name, bsdplay):
    hops, wanted = HELD[name]
    sends = [f"a: sendto 3 {hop} 7 -" for hop in hops]
    said = printed(bsdplay, [LINK, "wire a", "a: socket", *sends, "carry all", "a: show neighbours"])
    at = next(at for at, it in enumerate(said) if " show neighbours " in it)
    same(f"below show neighbours, after packets to {hops}", [it[4:] for it in said[at + 1 :]], wanted)


# ---- the indented lines in scripts of two hosts --------------------------------------------------------------------

SENT = "a: udp 10.0.0.1:1024 > 10.0.0.2:7, 2 bytes, id 1"
SEND = ["a: socket", 'a: sendto 3 10.0.0.2 7 "hi"']
EMPTY, TO_NOBODY = "a: sendto 3 10.0.0.2 7 -", "a: sendto 3 10.0.0.9 7 -"
BOUND = ["b: socket", "b: bind 3 0.0.0.0 7"]
DROPPED, DELIVERED = "    b dropped it: no socket has the port", "    b delivered it to socket 3"
FRAGMENT = "a: fragment of udp 10.0.0.1 > 10.0.0.2, bytes "
KEPT = "    b kept it until its datagram is whole"


def sent(numbers, *fates):
    """Returns the lines for empty datagrams with these identifications, each with the lines below it. Identification 1
    is that of SEND."""
    head = "a: udp 10.0.0.1:1024 > 10.0.0.2:7, 0 bytes, id"
    return [line for it in numbers for line in (SENT if it == 1 else f"{head} {it}", *fates)]


# Scripts, and the indented lines below their `carry` lines.
CARRIED = {
    "dropped": ([*SEND, "carry", "carry"], [SENT, DROPPED]),
    "delivered": ([*BOUND, *SEND, "carry"], [SENT, DELIVERED]),
    "lost": (["loss 100%", *SEND, "carry"], [SENT, "    lost"]),
    "repeated": (["repeat 100% from a", *SEND, "carry"], [SENT, "    sent twice", SENT, DROPPED, SENT, DROPPED]),
    "delayed by two carries": (
        ["delay 2-2", *SEND, *["carry"] * 3],
        [SENT, "    under way, due after 1 carry", SENT, "    under way, due in the next carry", SENT, DROPPED],
    ),
    "delayed by three, and taken from the wire": (
        ["delay 3-3", *SEND, "carry", "drop 0", "carry"],
        [SENT, "    under way, due after 2 carries"],
    ),
    "reordered": (["reorder 100%", *SEND, EMPTY, "carry"], [*sent([2, 1], DROPPED)]),
    "received by no host": (
        ["a: socket", TO_NOBODY, "carry"],
        ["a: udp 10.0.0.1:1024 > 10.0.0.9:7, 0 bytes, id 1", "    no host received it"],
    ),
    "fragments of a datagram that is delivered": (
        [*BOUND, "a: socket", "a: sendto 3 10.0.0.2 7 @1600", "carry"],
        [FRAGMENT + "0 to 1479, more, id 1", KEPT, FRAGMENT + "1480 to 1607, last, id 1",
         "    b delivered the whole datagram to socket 3"],
    ),
    "fragments of a datagram that is dropped": (
        ["a: socket", "a: sendto 3 10.0.0.2 7 @1600", "carry"],
        [FRAGMENT + "0 to 1479, more, id 1", KEPT, FRAGMENT + "1480 to 1607, last, id 1",
         "    b dropped the whole datagram: no socket has the port"],
    ),
    "70 packets": ([*SEND, *[EMPTY] * 29, "carry", *[EMPTY] * 40, "carry all"], sent(range(1, 71), DROPPED)),
    "more than are printed": (
        ["repeat 100%", *SEND, *[EMPTY] * 39, "carry"],
        [*sent(range(1, 41), "    sent twice"), *sent([it // 2 for it in range(2, 66)], DROPPED), "and 16 more",
         "a: repeated 40 packets", "b: received 80 packets", "b: dropped no socket has the port"],
    ),
}  # fmt: skip
# Scripts, and the indented lines below any of their lines.
BELOW = {
    "a send": ([*BOUND, *SEND], ["sent as 1 packet", SENT[3:], "1 mbuf taken"]),
    "a packet that is taken from the host": (
        [*SEND, "a: tx"],
        ["sent as 1 packet", SENT[3:], "1 mbuf taken", SENT[3:], "1 mbuf given back"],
    ),
    "a datagram that is delivered and received": (
        [*BOUND, 'b: rx udp 10.0.0.1:9 > 10.0.0.2:7 "hi"', "b: recvfrom 3 9"],
        ["udp 10.0.0.1:9 > 10.0.0.2:7, 2 bytes, id 1", "delivered to socket 3", "2 mbufs taken", "2 mbufs given back"],
    ),
    "a fragment that times out": (
        ['b: rx udp 10.0.0.1:9 > 10.0.0.2:7 "x"*16 at 0 more', "b: tick 60"],
        ["fragment of udp 10.0.0.1 > 10.0.0.2, bytes 0 to 23, more, id 1",
         "fragment kept: bytes 0 to 23 of datagram 1, more to come", "2 mbufs taken",
         "unfinished datagrams timed out: 1", "2 mbufs given back"],
    ),
}  # fmt: skip


def below(lines, of=""):
    """Returns the indented lines of the output below lines that contain this text."""
    chosen, found = False, []
    for line in lines:
        if line[:1] != " ":
            chosen = of in line
        elif chosen:
            found.append(line)
    return found


@rows(CARRIED)
def test_below_carry_stands_what_happened_to_each_packet(name, bsdplay):
    script, wanted = CARRIED[name]
    said = below(printed(bsdplay, [*HOSTS, *script]), " carry ")
    same(f"below the carries of {script}", said, [f"    {it}" for it in wanted])


@rows(BELOW)
def test_below_a_line_of_a_host_stands_what_it_did(name, bsdplay):
    script, wanted = BELOW[name]
    same(f"below the lines of {script}", below(printed(bsdplay, [*HOSTS, *script])), [f"    {it}" for it in wanted])


@rows(CARRIED | BELOW)
def test_with_quiet_nothing_stands_below_a_line(name, bsdplay):
    script, _ = (CARRIED | BELOW)[name]
    same(f"below the lines of {script}", below(printed(bsdplay, [*HOSTS, *script], "--quiet")), [])


# ---- packets as objects --------------------------------------------------------------------------------------------

# Scripts, and the objects that --json prints for their packets: the line's number, from, to, fate, the carries before
# it is due, and the cause.
SENDS, NO_PORT = (6, "a", None, "sent", None, None), "no socket has the port"
OBJECTS = {
    "dropped": ([*SEND, "carry", "carry"], [SENDS, (6, "a", "b", "dropped", 0, NO_PORT)]),
    "delivered": (
        [*BOUND, *SEND, "collect", "show wire", "deliver"],
        [(8, *SENDS[1:]), (8, "a", None, "under way", 0, None), (10, "a", "b", "delivered", 0, None)],
    ),
    "lost": (["loss 100%", *SEND, "carry"], [(7, "a", None, "lost", 0, None)]),
    "repeated": (
        ["repeat 100%", *SEND, "carry"],
        [(7, "a", None, "sent twice", 0, None), *[(7, "a", "b", "dropped", 0, NO_PORT)] * 2],
    ),
    "delayed": (["delay 2-2", *SEND, "carry"], [(7, *SENDS[1:]), (7, "a", None, "under way", 1, None)]),
    "received by no host": (["a: socket", TO_NOBODY, "carry"], [SENDS, (6, "a", None, "unheard", 0, None)]),
}
MEMBERS = ("number", "from", "to", "fate", "wait", "cause")


def packets(program, script):
    """Returns the objects for a script's packets."""
    told = map(json.loads, printed(program, [*HOSTS, *script], "--json"))
    return [it for it in told if "fate" in it]


@rows(OBJECTS)
def test_an_object_has_the_fate_of_a_packet(name, bsdplay):
    script, wanted = OBJECTS[name]
    told = packets(bsdplay, script)
    same(f"the packets of {script}", [tuple(it.get(member) for member in MEMBERS) for it in told], wanted)
    same(f"counts of the packets of {script}", [it for it in told if it.get("count", 1) != 1], [])


@rows([name for name, (script, _) in OBJECTS.items() if SEND[1] in script])
def test_an_object_has_the_bytes_of_a_packet(name, bsdplay):
    """They are the bytes in the reply to `a: tx`."""
    given = json.loads(printed(bsdplay, [*HOSTS, *SEND, "a: tx"], "--json")[-1])["reply"].split()[1]
    script, _ = OBJECTS[name]
    same(f"bytes of {script}", {it["packet"] for it in packets(bsdplay, script) if "packet" in it}, {given})


def test_with_quiet_packets_have_no_objects(bsdplay):
    same("--quiet", [it for it in printed(bsdplay, [*HOSTS, *SEND, "carry"], "-q") if "fate" in it], [])


def test_objects_are_whole_if_a_packet_reaches_many_hosts(bsdplay):
    """63 hosts drop each of two broadcasts, whose objects have 9 KB. Space for them ends within the second's."""
    names = [f"h{it}" for it in range(63)]
    script = ["host a --mtu 4352 --mbufs 2000 --clusters 400"]
    script += [f"host {it} --addr 10.0.0.{at + 2} --mtu 4352" for at, it in enumerate(names)]
    script += [f"wire a {' '.join(names)}", "a: socket", "a: setsockopt 3 broadcast 1"]
    script += [*["a: sendto 3 10.0.0.255 7 @4324"] * 2, "collect", "deliver"]
    packet, more = f'"number":{len(script)},"from":', '"fate":"more"'
    found = [it for it in printed(bsdplay, script, "--json") if packet in it or more in it]
    same("objects that are cut", [it[:30] for it in found if it[-1] != "}"], [])
    fates = [json.loads(it)["fate"] for it in found]
    same("fates", (set(fates[:-1]), fates[-1]), ({"dropped"}, "more"))
    assert 2**20 - 10 * 2**10 <= sum(len(it) + 1 for it in found) <= 2**20


# ---- lines that begin with a time ----------------------------------------------------------------------------------

NO_TIME = "expected a time (+0.5s, +2s), then a line"
NO_DIGIT = 'expected a hex digit (put text in quotes: "hi")'
PART = 'rx udp 10.0.0.2:9 > 10.0.0.1:7 "x"*16 at 0 more'
GONE = ["+29.5s show unfinished => 1 ..", "+0.5s show unfinished => 0 .."]
# Scripts, and what is printed for them. A datagram waits 30 seconds for its fragments.
TIMED = {
    "halves of a second": (
        ["+0.5s tx", "  +1.5s \t tx # c", "+0s tx"],
        ["1  +0.5s tx => none", "2  +1.5s tx => none", "3  +0s tx => none"],
    ),
    "no time": (
        ["+0.3s tx", "  +1 tx", "+1s", "+1s # c", "+s tx", "+1.5 tx"],
        [f"-:{n}:{3 if n == 2 else 1}: {NO_TIME}" for n in range(1, 7)],
    ),
    "a time that is too long": (["+32768s tx", "+32767.5s show pool => _ .."], [f"-:1:1: {NO_TIME}"]),
    "the column of a wrong digit": (
        ["+1s sendto 3 10.0.0.2 9 0x12", " +10.0s\trx zz"],
        [f"-:1:26: {NO_DIGIT}", f"-:2:12: {NO_DIGIT}"],
    ),
    "the column of a wrong word": (["+1s rx udp 10.0.0.2:9 < 10.0.0.1:7 -"], ["-:1:23: expected `>`"]),
    "a fragment times out": ([PART, *GONE], []),
    "a fragment times out, after ticks": ([PART, "tick 59", "+0s show unfinished => 1 ..", GONE[1]], []),
    "settings": (
        ["+0s --mtu 576 => ok", "+0.5s --mtu 576"],
        ["-:2: settings must come before all other lines"],
    ),
    "no command": (["+1s sokcet"], ["-:1: unknown command `sokcet` (`socket`?)"]),
}
TIMED_HOSTS = {
    "halves of a second": (
        ["+0.5s carry => quiet", "+1s a: socket", "+0s  b: tx"],
        ["5  +1s a: socket => ok 3", "6  +0s b: tx => none"],
    ),
    "columns": (
        ["+1s a: sendto 3 10.0.0.2 9 hi", "+1s  a: zz", "a: +1s tx"],
        [f"-:4:28: {NO_DIGIT}", "-:5: unknown command `zz`", "-:6:4: missing bytes"],
    ),
    "a fragment times out": (
        ['b: rx udp 10.0.0.1:9 > 10.0.0.2:7 "x"*16 at 0 more', "+29.5s b: show unfinished => 1 ..",
         "+0.5s carry => quiet", "b: show unfinished => 0 .."],
        [],
    ),
}  # fmt: skip


def timed(program, before, script, wanted):
    """Plays a script with times after the lines in `before`, and compares what is printed."""
    lines = printed(program, [*before, *script])[len(before) :]
    same(f"{script}, {lines}", [it for it in lines if it.startswith("-:") or (it[:1] != " " and it in wanted)], wanted)


@rows(TIMED)
def test_a_time_in_front_of_a_line_of_one_machine(name, bsdplay):
    timed(bsdplay, [], *TIMED[name])


@rows(TIMED_HOSTS)
def test_a_time_in_front_of_a_line_of_two_hosts(name, bsdplay):
    timed(bsdplay, HOSTS, *TIMED_HOSTS[name])


def test_strict_wants_an_expectation_behind_a_time(bsdplay):
    lines = printed(bsdplay, ["+1s tx", "+0.5s tx => none"], "--strict")
    same("--strict: lines without an expectation", [it.split(":")[1] for it in lines if it.startswith("-:")], ["1"])
