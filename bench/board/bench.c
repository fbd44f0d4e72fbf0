/* Our echo: rx, recvfrom, sendto, tx; with ETHER as a host on an Ethernet, which receives and sends frames. */
#include "bsdudp.h"

#include "echo.h"

static struct bsdudp stack;
static uint8_t buffer[LONGEST], out[PAD + FRAME_HEAD + MTU] __attribute__((aligned(4)));
static uint32_t fd;

#ifdef ETHER
static unsigned char memory[BSDUDP_ETHER_MEMORY(64, 16)] __attribute__((aligned(BSDUDP_ALIGNMENT)));

static int boot(const struct bsdudp_config *config)
{
    static const struct bsdudp_link link = {{2, 0, 0, 0, 0, 1}, 0xffffff00, 0x0a000002, 0};
    return bsdudp_ether_boot_in(&stack, config, &link, memory, sizeof memory);
}
#define come bsdudp_ether_receive
#define go bsdudp_ether_transmit
#else
static unsigned char memory[BSDUDP_MEMORY(64, 16)] __attribute__((aligned(BSDUDP_ALIGNMENT)));

static int boot(const struct bsdudp_config *config)
{
    return bsdudp_boot_in(&stack, config, memory, sizeof memory);
}
#define come bsdudp_rx
#define go bsdudp_tx
#endif

static void turn(void)
{
    struct bsdudp_addr from;
    uint32_t i;
    int len;
    for (i = 0; i < packet_count; i++)
        come(&stack, packets[i], lengths[i]);
    while ((len = bsdudp_recvfrom(&stack, fd, buffer, sizeof buffer, &from)) >= 0)
        bsdudp_sendto(&stack, fd, &from, buffer, (size_t)len);
    while (go(&stack, out + PAD, sizeof out - PAD) > 0)
        gone++;
}

int main(void)
{
    static const struct bsdudp_config config = {0x0a000001, 0x0a0000ff, 64, 16, MTU, 1};
    static const struct bsdudp_addr echo = {0, 7};
    if (boot(&config) < 0)
        return 1;
    fd = (uint32_t)bsdudp_socket(&stack);
    bsdudp_bind(&stack, fd, &echo);
    measure_all();
    return 0;
}
