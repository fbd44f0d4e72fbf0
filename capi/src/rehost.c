/* A host that changes its address while its sockets stay: made of other calls of the header. */
#include "bsdudp.h"

/* Of block.c: the memory in a block from malloc, which begins with its length. */
void *bsdudp_memory_of(size_t *block);

/* The sockets of the old host, in little space on the call stack. The flags of each have its local address: none, the
   host's own, its broadcast address, or 127.0.0.1. The size is that of its receive queue, or 0. */
enum { IS_OPEN = 1, BROADCAST = 2, REUSE_PORT = 4, LOCAL = 8 };
enum { NO_ADDRESS, OWN, ALL, LOOPBACK };
struct sockets {
    uint32_t peer_ip[BSDUDP_SOCKETS];
    uint16_t peer_port[BSDUDP_SOCKETS], local_port[BSDUDP_SOCKETS], size[BSDUDP_SOCKETS];
    uint8_t flags[BSDUDP_SOCKETS];
};

/* The address that connect takes for `to`: the host's own for 0, and its broadcast address for all ones. The first
   descriptor must be free. */
static uint32_t taken_for(struct bsdudp *host, uint32_t to)
{
    const struct bsdudp_addr peer = {to, 1};
    struct bsdudp_name name = {0, 0, 0, 0, 0, 0};
    bsdudp_socket(host);
    bsdudp_connect(host, BSDUDP_FIRST_FD, &peer);
    bsdudp_getsockname(host, BSDUDP_FIRST_FD, &name);
    bsdudp_close(host, BSDUDP_FIRST_FD);
    return name.peer_ip;
}

/* The first socket is closed as soon as it has been read: the sockets end with the host, and taken_for needs one. */
static void read_sockets(struct bsdudp *host, struct sockets *to)
{
    struct bsdudp_name name = {0, 0, 0, 0, 0, 0};
    uint32_t own, all, k;
    int is_open = bsdudp_getsockname(host, BSDUDP_FIRST_FD, &name) == 0;
    int size = bsdudp_getsockopt(host, BSDUDP_FIRST_FD, BSDUDP_SO_RCVBUF);
    bsdudp_close(host, BSDUDP_FIRST_FD);
    own = taken_for(host, 0);
    all = taken_for(host, 0xffffffff);
    for (k = 0; k < BSDUDP_SOCKETS; k++) {
        const uint32_t ip = name.local_ip;
        const uint32_t local = ip == own ? OWN : ip == all ? ALL : ip != 0 ? LOOPBACK : NO_ADDRESS;
        const uint32_t options = (name.broadcast ? BROADCAST : 0) | (name.reuse_port ? REUSE_PORT : 0);
        to->flags[k] = (uint8_t)((is_open ? IS_OPEN : 0) | options | LOCAL * local);
        to->local_port[k] = name.local_port;
        to->peer_ip[k] = name.peer_ip;
        to->peer_port[k] = name.peer_port;
        to->size[k] = (uint16_t)(size > 0 ? size : 0);
        is_open = bsdudp_getsockname(host, BSDUDP_FIRST_FD + k + 1, &name) == 0;
        size = bsdudp_getsockopt(host, BSDUDP_FIRST_FD + k + 1, BSDUDP_SO_RCVBUF);
    }
}

/* Opens the sockets again, in the order of their descriptors, with the new host's addresses. While they are bound, each
   may share its port. */
static void open_sockets(struct bsdudp *host, const struct sockets *of, uint32_t addr, uint32_t bcast)
{
    const uint32_t ips[] = {0, addr, bcast, BSDUDP_IP(127, 0, 0, 1)};
    uint32_t k;
    for (k = 0; k < BSDUDP_SOCKETS; k++)
        bsdudp_socket(host);
    for (k = 0; k < BSDUDP_SOCKETS; k++) {
        const struct bsdudp_addr local = {ips[of->flags[k] / LOCAL], of->local_port[k]};
        const struct bsdudp_addr peer = {of->peer_ip[k], of->peer_port[k]};
        const uint32_t fd = BSDUDP_FIRST_FD + k;
        if ((of->flags[k] & IS_OPEN) == 0) {
            bsdudp_close(host, fd);
            continue;
        }
        bsdudp_setsockopt(host, fd, BSDUDP_SO_BROADCAST, of->flags[k] & BROADCAST);
        bsdudp_setsockopt(host, fd, BSDUDP_SO_REUSEPORT, 1);
        if (of->size[k] != 0)
            bsdudp_setsockopt(host, fd, BSDUDP_SO_RCVBUF, of->size[k]);
        if (local.port != 0)
            bsdudp_bind(host, fd, &local);
        if (peer.port != 0)
            bsdudp_connect(host, fd, &peer);
    }
    for (k = 0; k < BSDUDP_SOCKETS; k++)
        if ((of->flags[k] & IS_OPEN) != 0)
            bsdudp_setsockopt(host, BSDUDP_FIRST_FD + k, BSDUDP_SO_REUSEPORT, of->flags[k] & REUSE_PORT);
}

/* What can fail is tried before the old host ends: boot without memory returns -BSDUDP_ENOMEM for right settings. If
   the second boot fails all the same, the handle holds no stack and no block. */
int bsdudp_ether_rehost(struct bsdudp *host, const struct bsdudp_config *config, const struct bsdudp_link *link,
                        void *memory, size_t len)
{
    /* Before 0.5.0 the macro wasn't rounded up, so a program may pass up to 15 bytes less. */
    const size_t needed = BSDUDP_ETHER_MEMORY(config->mbufs, config->clusters) - (BSDUDP_ALIGNMENT - 1);
    struct bsdudp trial = BSDUDP_NONE;
    void (*const give_back)(void *) = host->give_back;
    void *const block = host->block;
    const int stays = memory == NULL && give_back != NULL; /* in the block from malloc */
    struct sockets sockets;
    int answer = bsdudp_ether_address(host);
    if (answer == -BSDUDP_ENXIO || answer == -BSDUDP_EOPNOTSUPP)
        return answer;
    if (memory == NULL)
        len = 0;
    if (stays) {
        memory = bsdudp_memory_of(block);
        len = *(size_t *)block;
    }
    answer = bsdudp_ether_boot_in(&trial, config, link, memory, 0);
    if (answer != -BSDUDP_ENOMEM || len < needed)
        return answer;
    read_sockets(host, &sockets);
    if (stays) {
        host->block = NULL;
        host->give_back = NULL;
    }
    bsdudp_end(host);
    answer = bsdudp_ether_boot_in(host, config, link, memory, len);
    if (answer == 0)
        open_sockets(host, &sockets, config->addr, config->addr | ~link->mask);
    if (stays && answer == 0) {
        host->block = block;
        host->give_back = give_back;
    } else if (stays) {
        give_back(block);
    }
    return answer;
}
