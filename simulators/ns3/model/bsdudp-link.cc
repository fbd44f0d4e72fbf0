/*
 * Copyright (c) 2026 The bsdudp authors
 *
 * SPDX-License-Identifier: BSD-2-Clause
 */
#include "bsdudp-link.h"

#include "ns3/mac48-address.h"
#include "ns3/udp-header.h"

#include <algorithm>

namespace ns3
{

namespace
{

/// Where a datagram's data begin in its first packet.
constexpr uint32_t DATA = BsdudpHeader::LENGTH + 8;

/// A counter of the link that counts dropped packets.
struct Tally
{
    uint64_t bsdudp_tallies::*value; ///< the counter
    bool current;                    ///< whether it counts the packet of the call
    const char* cause;               ///< its name, and what it counts
};

const Tally TALLIES[] = {
    {&bsdudp_tallies::martians, true, "link.martians: an address that can't occur on a link"},
    {&bsdudp_tallies::bad_arp, true, "link.bad_arp: a malformed ARP packet"},
    {&bsdudp_tallies::no_route, true, "link.no_route: another network, and there is no gateway"},
    {&bsdudp_tallies::replies_dropped, true, "link.replies_dropped: too many ARP requests at once"},
    {&bsdudp_tallies::held_dropped, false, "link.held_dropped: too many packets wait"},
    {&bsdudp_tallies::unresolved, false, "link.unresolved: no reply gave the hardware address"},
    {&bsdudp_tallies::icmp_dropped, false, "link.icmp_dropped: an ICMP reply can't be sent"},
};

} // namespace

void
BsdudpFrame::Write(uint8_t* bytes, const Address& to, const Address& from, uint16_t protocol)
{
    Mac48Address::ConvertFrom(to).CopyTo(bytes);
    Mac48Address::ConvertFrom(from).CopyTo(bytes + 6);
    bytes[12] = protocol >> 8;
    bytes[13] = protocol & 0xff;
}

Address
BsdudpFrame::GetDestination(const uint8_t* bytes)
{
    Mac48Address to;
    to.CopyFrom(bytes);
    return to;
}

uint16_t
BsdudpFrame::GetProtocol(const uint8_t* bytes)
{
    return static_cast<uint16_t>(bytes[12] << 8 | bytes[13]);
}

void
BsdudpSent::Add(Ptr<const Packet> data)
{
    m_datagrams.push_back({data->Copy(), nullptr});
    if (m_datagrams.size() > MOST)
    {
        m_datagrams.pop_front();
    }
}

void
BsdudpSent::Begin(const BsdudpHeader& header, const uint8_t* bytes)
{
    const uint32_t size = bytes[24] << 8 | bytes[25];
    const uint32_t length = header.length - 8;
    std::vector<uint8_t> room(length);
    for (auto& it : m_datagrams)
    {
        if (!it.whole && it.data->GetSize() + 8 == size &&
            it.data->CopyData(room.data(), length) == length &&
            std::equal(room.begin(), room.end(), bytes + DATA))
        {
            UdpHeader udp;
            udp.SetSourcePort(bytes[20] << 8 | bytes[21]);
            udp.SetDestinationPort(bytes[22] << 8 | bytes[23]);
            udp.ForceChecksum(bytes[27] << 8 | bytes[26]); // it's written low byte first
            it.whole = it.data->Copy();
            it.whole->AddHeader(udp);
            it.key = header.key;
            return;
        }
    }
}

Ptr<Packet>
BsdudpSent::Take(const uint8_t* bytes)
{
    const BsdudpHeader header(bytes);
    if (header.offset == 0 && header.length >= 8)
    {
        Begin(header, bytes);
    }
    for (auto it = m_datagrams.begin(); it != m_datagrams.end(); ++it)
    {
        if (it->whole && it->key == header.key)
        {
            Ptr<Packet> whole = it->whole;
            if (!header.more)
            {
                m_datagrams.erase(it);
            }
            return whole;
        }
    }
    return nullptr;
}

void
BsdudpSent::Clear()
{
    m_datagrams.clear();
}

BsdudpLinkDrops::BsdudpLinkDrops(bsdudp* stack)
{
    bsdudp_ether_tallies(stack, &m_tallies);
}

std::vector<BsdudpLinkDrops::Drop>
BsdudpLinkDrops::GetSince(const BsdudpLinkDrops& before) const
{
    std::vector<Drop> drops;
    for (const auto& it : TALLIES)
    {
        const uint64_t count = m_tallies.*it.value - before.m_tallies.*it.value;
        if (count != 0)
        {
            drops.push_back({it.cause, count, it.current});
        }
    }
    return drops;
}

bool
IsBsdudpRequesting(bsdudp* stack)
{
    bsdudp_neighbour it;
    for (uint32_t i = 0; bsdudp_ether_neighbour(stack, i, &it) == 0; i++)
    {
        if (it.known == 0)
        {
            return true;
        }
    }
    return false;
}

} // namespace ns3
