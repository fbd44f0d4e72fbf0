/* The names of counters and errors, the texts of causes and results, and the version. tools/lists writes the tables. */
#include "bsdudp.h"

const char *bsdudp_counter_name(uint32_t which)
{
    static const char *const names[BSDUDP_COUNTERS] = {
        "ip.total",
        "ip.toosmall",
        "ip.badvers",
        "ip.badhlen",
        "ip.options",
        "ip.badsum",
        "ip.badlen",
        "ip.tooshort",
        "ip.cantforward",
        "ip.badfrag",
        "ip.fragments",
        "ip.fragdropped",
        "ip.fragtimeout",
        "ip.reclaimed",
        "ip.reassembled",
        "ip.noproto",
        "udp.hdrops",
        "udp.badlen",
        "udp.badsum",
        "udp.noport",
        "udp.noportbcast",
        "udp.fullsock",
        "ip.localout",
        "ip.fragmented",
        "out.dropped",
        "nobufs",
    };
    return which < BSDUDP_COUNTERS ? names[which] : NULL;
}

const char *bsdudp_counter_cause(uint32_t which)
{
    static const char *const causes[BSDUDP_COUNTERS] = {
        NULL,
        "packet shorter than a header",
        "wrong version",
        "header length too small",
        "options are not taken",
        "wrong header checksum",
        "total length too small",
        "packet shorter than its total length",
        "not addressed to this machine",
        "malformed fragment",
        NULL,
        "fragment held already",
        "fragments missing for 60 ticks",
        "unfinished datagram given up for its buffers",
        NULL,
        "unknown protocol",
        "datagram shorter than a header",
        "wrong datagram length",
        "wrong datagram checksum",
        "no socket has the port",
        "no socket has the port of the broadcast",
        "receive queue full",
        NULL,
        NULL,
        "output queue full",
        "no buffer space available",
    };
    return which < BSDUDP_COUNTERS ? causes[which] : NULL;
}

struct error {
    int number;
    const char *name, *meaning;
};

static const struct error errors[] = {
    {BSDUDP_ENXIO, "ENXIO",
     "the handle holds no stack; boot: it holds one already"},
    {BSDUDP_EBADF, "EBADF",
     "the descriptor is not open"},
    {BSDUDP_ENOMEM, "ENOMEM",
     "boot: too little memory for the stack"},
    {BSDUDP_EACCES, "EACCES",
     "the destination is the broadcast address, and the socket is not allowed to send to it; SO_BROADCAST allows it"},
    {BSDUDP_EINVAL, "EINVAL",
     "boot: a wrong setting, which bsdudp_boot_strerror names; bind: the socket is already bound; bind_random: no "
     "port is in the range; a query: no such number"},
    {BSDUDP_EMFILE, "EMFILE",
     "all descriptors are open; at most 64"},
    {BSDUDP_EDOM, "EDOM",
     "boot: numbers of mbufs or clusters that a pool cannot have"},
    {BSDUDP_EWOULDBLOCK, "EWOULDBLOCK",
     "no datagram is queued, and the call does not wait"},
    {BSDUDP_EDESTADDRREQ, "EDESTADDRREQ",
     "the socket is not connected, and the call has no destination"},
    {BSDUDP_EMSGSIZE, "EMSGSIZE",
     "send: the datagram is too long; rx: the packet is too long; tx: the buffer is too short"},
    {BSDUDP_ENOPROTOOPT, "ENOPROTOOPT",
     "no such option"},
    {BSDUDP_EOPNOTSUPP, "EOPNOTSUPP",
     "a call for packets on a host, or a call for frames on a bare stack"},
    {BSDUDP_EADDRINUSE, "EADDRINUSE",
     "another socket has the address and port; another host uses the address"},
    {BSDUDP_EADDRNOTAVAIL, "EADDRNOTAVAIL",
     "the address is not an address of this host, or the port to connect to is 0"},
    {BSDUDP_ENOBUFS, "ENOBUFS",
     "the pool has too few buffers; nothing was sent"},
    {BSDUDP_EISCONN, "EISCONN",
     "the socket is connected, and the call has a destination"},
    {BSDUDP_ECONNREFUSED, "ECONNREFUSED",
     "the peer refused a datagram: it has no socket with the port; only bsdudp_ether_last_error reports it"},
    {BSDUDP_EHOSTUNREACH, "EHOSTUNREACH",
     "no interface leads to the destination"},
    {BSDUDP_EQUEUE, "ENOBUFS",
     "the interface's output queue is full; the packets that fit are queued (ENOBUFS in 4.4BSD)"},
};

/* The error of a negative result; NULL if no call returns it. */
static const struct error *error_of(int result)
{
    size_t i;
    for (i = 0; i < sizeof errors / sizeof errors[0]; i++)
        if (result == -errors[i].number)
            return &errors[i];
    return NULL;
}

const char *bsdudp_error_name(int result)
{
    const struct error *error = error_of(result);
    return error != NULL ? error->name : NULL;
}

const char *bsdudp_strerror(int result)
{
    const struct error *error = error_of(result);
    if (result >= 0)
        return "ok";
    return error != NULL ? error->meaning : "unknown";
}

const char *bsdudp_version(void)
{
#ifdef BSDUDP_UNPROVED
    return BSDUDP_VERSION ", unproved build";
#else
    return BSDUDP_VERSION;
#endif
}
