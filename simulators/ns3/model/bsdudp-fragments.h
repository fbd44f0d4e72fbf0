/*
 * Copyright (c) 2026 The bsdudp authors
 *
 * SPDX-License-Identifier: BSD-2-Clause
 */
#ifndef BSDUDP_FRAGMENTS_H
#define BSDUDP_FRAGMENTS_H

#include "ns3/packet.h"

#include <bsdudp.h>
#include <cstdint>
#include <map>
#include <set>
#include <tuple>
#include <vector>

namespace ns3
{

/**
 * \ingroup bsdudp
 *
 * \brief The fields of an IPv4 header without options that identify a stack's packets.
 */
struct BsdudpHeader
{
    /// The bytes of an IPv4 header without options.
    static constexpr uint32_t LENGTH = 20;

    /// Source, destination, identification and protocol: what fragments of one datagram share.
    typedef std::tuple<uint32_t, uint32_t, uint16_t, uint8_t> Key;

    Key key;         ///< which datagram
    uint32_t offset; ///< where the packet's data begin in the datagram
    bool more;       ///< whether more come after it
    uint32_t length; ///< the packet's bytes after the header

    /**
     * \brief Reads the header of a packet.
     * \param bytes the packet, LENGTH bytes or more
     */
    explicit BsdudpHeader(const uint8_t* bytes);

    /**
     * \return whether the packet isn't a whole datagram
     */
    bool IsFragment() const;
};

/**
 * \ingroup bsdudp
 *
 * \brief The ns-3 packets of the fragments that a stack holds: a table next to the library's. From
 * it a reassembled datagram gets its tags back, and Drop reports what is dropped.
 */
class BsdudpFragments
{
  public:
    /**
     * \brief Keeps a fragment.
     * \param header its header
     * \param packet the packet, from the header on
     */
    void Add(const BsdudpHeader& header, Ptr<const Packet> packet);

    /**
     * \brief Takes the fragments of a datagram out and joins their data in order.
     * \param key which datagram
     * \return the datagram from its UDP header on, null if the fragments overlap or lack bytes
     */
    Ptr<Packet> Join(const BsdudpHeader::Key& key);

    /**
     * \brief Forgets all datagrams that a stack doesn't hold.
     * \param stack the stack
     * \return the packets of the forgotten ones
     */
    std::vector<Ptr<const Packet>> KeepThoseOf(bsdudp* stack);

    /**
     * \return how many datagrams there are
     */
    std::size_t GetN() const;

    /// Forgets everything.
    void Clear();

  private:
    /// The fragments of a datagram by their offsets. Of two with the same one the older stays.
    typedef std::map<uint32_t, Ptr<const Packet>> Pieces;

    std::map<BsdudpHeader::Key, Pieces> m_datagrams; ///< the fragments of each datagram
};

} // namespace ns3

#endif /* BSDUDP_FRAGMENTS_H */
