/* The LAN9118 by polling, from SMSC's data sheet "LAN9118 High-Performance Single-Chip 10/100 Non-PCI Ethernet
   Controller" (its chapters 3 and 5), and the address from ARM's application note 385. */
#include "lan9118.h"

#define REGISTER(offset) (*(volatile uint32_t *)(0x40200000 + (offset)))
#define RX_DATA REGISTER(0x00)
#define TX_DATA REGISTER(0x20)
#define RX_STATUS REGISTER(0x40)
#define TX_STATUS REGISTER(0x48)
#define ID_REV REGISTER(0x50)
#define IRQ_CFG REGISTER(0x54)
#define INT_STS REGISTER(0x58)
#define INT_EN REGISTER(0x5c)
#define BYTE_TEST REGISTER(0x64)
#define FIFO_INT REGISTER(0x68)
#define TX_CFG REGISTER(0x70)
#define HW_CFG REGISTER(0x74)
#define RX_DP_CTRL REGISTER(0x78)
#define RX_FIFO_INF REGISTER(0x7c)
#define TX_FIFO_INF REGISTER(0x80)
#define PMT_CTRL REGISTER(0x84)
#define MAC_CMD REGISTER(0xa4)
#define MAC_DATA REGISTER(0xa8)
#define E2P_CMD REGISTER(0xb0)

static const uint32_t BUSY = UINT32_C(1) << 31; /* of MAC_CMD, E2P_CMD and RX_DP_CTRL */
enum { HW_RESET = 1, HW_MUST_BE_ONE = 1 << 20, HW_TX_FIFO_5K = 5 << 16, TX_ON = 2, READY = 1 };
enum { IRQ_ON_HIGH_PUSH_PULL = 0x111, RX_STATUS_LEVEL = 1 << 3 };
enum { RX_ERROR = 1 << 15, TX_ERROR = 1 << 15, TX_FIRST = 1 << 13, TX_LAST = 1 << 12 };

/* The registers of its MAC, which are read and written by MAC_CMD and MAC_DATA, and two of its PHY (IEEE 802.3, clause
   22): control, and what is advertised. */
enum { MAC_CR = 1, MAC_ADDRH = 2, MAC_ADDRL = 3, MII_ACC = 6, MII_DATA = 7, MAC_RX_ON = 4, MAC_TX_ON = 8 };
enum { PHY_CONTROL = 0, PHY_ADVERTISE = 4, MII_PHY_1 = 1 << 11, MII_WRITE = 2, MII_BUSY = 1 };
enum { NEGOTIATE = 0x1200, HALF_DUPLEX = 0x00a1, CHECK_SEQUENCE = 4, PATIENCE = 1000000 };

/* Waits until these bits of a register have the wanted values. Returns -1 if that takes too long. */
static int wait_for(volatile uint32_t *at, uint32_t bits, uint32_t value)
{
    uint32_t tries;
    for (tries = 0; tries < PATIENCE; tries++)
        if ((*at & bits) == value)
            return 0;
    return -1;
}

static int mac_write(uint32_t which, uint32_t value)
{
    MAC_DATA = value;
    MAC_CMD = BUSY | which;
    return wait_for(&MAC_CMD, BUSY, 0);
}

/* The PHY takes at most a millisecond for a register. */
static int phy_write(uint32_t which, uint32_t value)
{
    uint32_t tries;
    if (mac_write(MII_DATA, value) < 0 || mac_write(MII_ACC, MII_PHY_1 | which << 6 | MII_WRITE | MII_BUSY) < 0)
        return -1;
    for (tries = 0; tries < PATIENCE; tries++) {
        MAC_CMD = BUSY | UINT32_C(1) << 30 | MII_ACC;
        if (wait_for(&MAC_CMD, BUSY, 0) < 0)
            return -1;
        if ((MAC_DATA & MII_BUSY) == 0)
            return 0;
    }
    return -1;
}

int lan9118_start(const uint8_t mac[6])
{
    BYTE_TEST = 0; /* any write wakes the card */
    if (wait_for(&PMT_CTRL, READY, READY) < 0 || BYTE_TEST != UINT32_C(0x87654321) || ID_REV >> 16 != 0x118)
        return -1;
    HW_CFG = HW_RESET;
    if (wait_for(&HW_CFG, HW_RESET, 0) < 0 || wait_for(&PMT_CTRL, READY, READY) < 0 || wait_for(&E2P_CMD, BUSY, 0) < 0)
        return -1;
    HW_CFG = HW_MUST_BE_ONE | HW_TX_FIFO_5K;
    /* only half duplex is offered, so the MAC need not read what was agreed on */
    if (phy_write(PHY_ADVERTISE, HALF_DUPLEX) < 0 || phy_write(PHY_CONTROL, NEGOTIATE) < 0)
        return -1;
    if (mac_write(MAC_ADDRH, mac[4] | (uint32_t)mac[5] << 8) < 0 ||
        mac_write(MAC_ADDRL, mac[0] | (uint32_t)mac[1] << 8 | (uint32_t)mac[2] << 16 | (uint32_t)mac[3] << 24) < 0)
        return -1;
    TX_CFG = TX_ON;
    return mac_write(MAC_CR, MAC_RX_ON | MAC_TX_ON);
}

size_t lan9118_receive(uint8_t *buffer)
{
    while ((RX_FIFO_INF & 0xff0000) != 0) {
        const uint32_t status = RX_STATUS, came = status >> 16 & 0x3fff, words = (came + 3) / 4;
        const uint32_t len = came > CHECK_SEQUENCE ? came - CHECK_SEQUENCE : 0;
        const uint32_t most = (status & RX_ERROR) != 0 || len > LAN9118_FRAME ? 0 : len;
        uint32_t i, k, at = 0;
        for (i = 0; i < words; i++) {
            const uint32_t word = RX_DATA; /* the last one, or a part of it, is the check sequence */
            for (k = 0; k < 4 && at < most; k++)
                buffer[at++] = (uint8_t)(word >> 8 * k);
        }
        if (at > 0)
            return at;
    }
    return 0;
}

int lan9118_send(const uint8_t *frame, size_t len)
{
    const uint32_t words = (uint32_t)(len + 3) / 4;
    uint32_t at = 0, is_lost = 0;
    while ((TX_FIFO_INF & 0xff0000) != 0)
        is_lost |= TX_STATUS & TX_ERROR;
    while ((TX_FIFO_INF & 0xffff) < 4 * words + 8)
        continue;
    TX_DATA = TX_FIRST | TX_LAST | (uint32_t)len;
    TX_DATA = (uint32_t)len;
    while (at < len) {
        uint32_t word = 0, k;
        for (k = 0; k < 4 && at < len; k++)
            word |= (uint32_t)frame[at++] << 8 * k;
        TX_DATA = word;
    }
    return is_lost != 0 ? -1 : 0;
}

void lan9118_listen(void)
{
    FIFO_INT = 0; /* one frame is enough */
    IRQ_CFG = IRQ_ON_HIGH_PUSH_PULL;
    INT_EN = RX_STATUS_LEVEL;
}

void lan9118_heard(void) { INT_STS = RX_STATUS_LEVEL; }
