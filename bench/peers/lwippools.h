/*
 * lwIP's pools, used instead of its heap if PEERS_POOLS is set: blocks for the header of a fragment, for a send of one
 * packet, and for one of 9,000 bytes. Together they are as large as MEM_SIZE.
 */
LWIP_MALLOC_MEMPOOL_START
LWIP_MALLOC_MEMPOOL(64, 128)
LWIP_MALLOC_MEMPOOL(24, 1600)
LWIP_MALLOC_MEMPOOL(9, 9216)
LWIP_MALLOC_MEMPOOL_END
