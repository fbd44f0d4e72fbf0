/*
 * Copyright (c) 2026 The bsdudp authors
 *
 * SPDX-License-Identifier: BSD-2-Clause
 */
#include "bsdudp-fragments.h"

namespace ns3
{

namespace
{

/// Two bytes in the order of the network.
uint16_t
Read16(const uint8_t* bytes)
{
    return static_cast<uint16_t>(bytes[0] << 8 | bytes[1]);
}

/// Four bytes in the order of the network.
uint32_t
Read32(const uint8_t* bytes)
{
    return static_cast<uint32_t>(Read16(bytes)) << 16 | Read16(bytes + 2);
}

} // namespace

BsdudpHeader::BsdudpHeader(const uint8_t* bytes)
    : key(Read32(bytes + 12), Read32(bytes + 16), Read16(bytes + 4), bytes[9]),
      offset((Read16(bytes + 6) & 0x1fff) * 8),
      more((bytes[6] & 0x20) != 0),
      length(Read16(bytes + 2) < LENGTH ? 0 : Read16(bytes + 2) - LENGTH)
{
}

bool
BsdudpHeader::IsFragment() const
{
    return more || offset != 0;
}

void
BsdudpFragments::Add(const BsdudpHeader& header, Ptr<const Packet> packet)
{
    Ptr<Packet> data = packet->Copy();
    if (data->GetSize() > BsdudpHeader::LENGTH + header.length)
    {
        data->RemoveAtEnd(data->GetSize() - BsdudpHeader::LENGTH - header.length);
    }
    m_datagrams[header.key].emplace(header.offset, data);
}

Ptr<Packet>
BsdudpFragments::Join(const BsdudpHeader::Key& key)
{
    auto found = m_datagrams.extract(key);
    if (found.empty())
    {
        return nullptr;
    }
    auto whole = Create<Packet>();
    for (const auto& [offset, packet] : found.mapped())
    {
        if (offset != whole->GetSize())
        {
            return nullptr;
        }
        auto data =
            packet->CreateFragment(BsdudpHeader::LENGTH, packet->GetSize() - BsdudpHeader::LENGTH);
        if (offset == 0)
        {
            whole = data;
        }
        else
        {
            whole->AddAtEnd(data);
        }
    }
    return whole;
}

std::vector<Ptr<const Packet>>
BsdudpFragments::KeepThoseOf(bsdudp* stack)
{
    std::set<BsdudpHeader::Key> held;
    struct bsdudp_unfinished it;
    for (uint32_t i = 0; bsdudp_unfinished(stack, i, &it) == 0; i++)
    {
        held.emplace(it.source, it.destination, it.id, it.protocol);
    }
    std::vector<Ptr<const Packet>> forgotten;
    for (auto datagram = m_datagrams.begin(); datagram != m_datagrams.end();)
    {
        if (held.count(datagram->first) != 0)
        {
            ++datagram;
            continue;
        }
        for (const auto& piece : datagram->second)
        {
            forgotten.push_back(piece.second);
        }
        datagram = m_datagrams.erase(datagram);
    }
    return forgotten;
}

std::size_t
BsdudpFragments::GetN() const
{
    return m_datagrams.size();
}

void
BsdudpFragments::Clear()
{
    m_datagrams.clear();
}

} // namespace ns3
