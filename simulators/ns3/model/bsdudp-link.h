/*
 * Copyright (c) 2026 The bsdudp authors
 *
 * SPDX-License-Identifier: BSD-2-Clause
 */
#ifndef BSDUDP_LINK_H
#define BSDUDP_LINK_H

#include "bsdudp-fragments.h"

#include "ns3/address.h"
#include "ns3/packet.h"

#include <bsdudp.h>
#include <deque>
#include <string>
#include <vector>

namespace ns3
{

/**
 * \ingroup bsdudp
 *
 * \brief The Ethernet header of a frame.
 */
struct BsdudpFrame
{
    /// The bytes of a header.
    static constexpr uint32_t LENGTH = 14;

    /**
     * \brief Writes a header.
     * \param bytes where to, LENGTH bytes
     * \param to the destination, a Mac48Address
     * \param from the source, a Mac48Address
     * \param protocol the type
     */
    static void Write(uint8_t* bytes, const Address& to, const Address& from, uint16_t protocol);

    /**
     * \param bytes a frame
     * \return its destination, a Mac48Address
     */
    static Address GetDestination(const uint8_t* bytes);

    /**
     * \param bytes a frame
     * \return its type
     */
    static uint16_t GetProtocol(const uint8_t* bytes);
};

/**
 * \ingroup bsdudp
 *
 * \brief The data of datagrams whose packets may wait for a hardware address. From it a packet that
 * leaves later gets its tags.
 */
class BsdudpSent
{
  public:
    /**
     * \brief Keeps the data of a datagram, and forgets those of the oldest one if there are many.
     * \param data the data
     */
    void Add(Ptr<const Packet> data);

    /**
     * \brief Finds the datagram of a packet that leaves. After its last fragment it's forgotten.
     * \param bytes the packet's bytes, from its IPv4 header on
     * \return the datagram from its UDP header on, null if none has these bytes
     */
    Ptr<Packet> Take(const uint8_t* bytes);

    /// Forgets everything.
    void Clear();

  private:
    /// The most datagrams. The library holds 8 packets, so no more than 8 of them wait.
    static constexpr std::size_t MOST = 16;

    /// A datagram.
    struct Datagram
    {
        Ptr<const Packet> data;  ///< its data
        Ptr<Packet> whole;       ///< with its UDP header, null before its first packet left
        BsdudpHeader::Key key{}; ///< its fields, if so
    };

    /**
     * \brief Finds the datagram whose first packet this is.
     * \param header the packet's header
     * \param bytes the packet's bytes
     */
    void Begin(const BsdudpHeader& header, const uint8_t* bytes);

    std::deque<Datagram> m_datagrams; ///< the oldest one first
};

/**
 * \ingroup bsdudp
 *
 * \brief What the link of a host on an Ethernet counts as dropped.
 */
class BsdudpLinkDrops
{
  public:
    /// A cause, and how many packets were dropped for it.
    struct Drop
    {
        std::string cause; ///< such as "link.unresolved: no reply gave the hardware address"
        uint64_t count;    ///< how many
        bool current;      ///< whether it's the packet of the call, and not one that waited
    };

    /**
     * \brief Reads the counters.
     * \param stack the stack
     */
    explicit BsdudpLinkDrops(bsdudp* stack);

    /**
     * \param before the counters before a call
     * \return what was dropped since
     */
    std::vector<Drop> GetSince(const BsdudpLinkDrops& before) const;

  private:
    bsdudp_tallies m_tallies{}; ///< the library's counters
};

/**
 * \param stack a host on an Ethernet
 * \return whether it requests a hardware address, for which packets may wait
 */
bool IsBsdudpRequesting(bsdudp* stack);

} // namespace ns3

#endif /* BSDUDP_LINK_H */
