/*
 * Copyright (c) 2026 The bsdudp authors
 *
 * SPDX-License-Identifier: BSD-2-Clause
 */
#include "bsdudp-stack.h"

#include "bsdudp-log.h"
#include "bsdudp-socket.h"

#include "ns3/abort.h"
#include "ns3/arp-l3-protocol.h"
#include "ns3/ipv4-header.h"
#include "ns3/ipv4-l3-protocol.h"
#include "ns3/ipv4.h"
#include "ns3/mac48-address.h"
#include "ns3/simulator.h"
#include "ns3/udp-header.h"
#include "ns3/udp-l4-protocol.h"
#include "ns3/uinteger.h"

#include <algorithm>
#include <bitset>
#include <cstring>
#include <iostream>
#include <sstream>

namespace ns3
{

NS_OBJECT_ENSURE_REGISTERED(BsdudpStack);

LogComponent&
GetBsdudpLog()
{
    static LogComponent log("bsdudp", __FILE__);
    return log;
}

namespace
{

/// The MTUs that the library accepts.
constexpr uint16_t LEAST_MTU = 68;
constexpr uint16_t GREATEST_MTU = BSDUDP_TX_ROOM;
constexpr uint16_t GREATEST_MTU_ON_ETHERNET = BSDUDP_ETHER_ROOM - BsdudpFrame::LENGTH;

/// A host on an Ethernet announces its address within this number of ticks after it was booted.
constexpr int64_t ANNOUNCING = 12;

/// The bytes of a UDP header.
constexpr uint32_t UDP_LENGTH = 8;

/// The number of a counter; BSDUDP_COUNTERS if no counter has this name.
uint32_t
FindCounter(const std::string& name)
{
    uint32_t i = 0;
    while (i < BSDUDP_COUNTERS && name != bsdudp_counter_name(i))
    {
        i++;
    }
    return i;
}

/// Whether a packet is a whole ICMP error, which a host on an Ethernet evaluates.
bool
IsIcmpError(Ptr<const Packet> packet)
{
    uint8_t bytes[BsdudpHeader::LENGTH + 1];
    return packet && packet->CopyData(bytes, sizeof(bytes)) == sizeof(bytes) && bytes[9] == 1 &&
           bytes[BsdudpHeader::LENGTH] == 3 && !BsdudpHeader(bytes).IsFragment();
}

/// A buffer for the bytes of a call. They're read before the next call.
std::vector<uint8_t>&
GetRoom(std::size_t length)
{
    static std::vector<uint8_t> room(BSDUDP_ETHER_FRAME);
    if (room.size() < length)
    {
        room.resize(length);
    }
    return room;
}

} // namespace

TypeId
BsdudpStack::GetTypeId()
{
    static TypeId tid =
        TypeId("ns3::BsdudpStack")
            .SetParent<Object>()
            .SetGroupName("Internet")
            .AddConstructor<BsdudpStack>()
            .AddAttribute("Mbufs",
                          "How many mbufs of 128 bytes the pool has.",
                          UintegerValue(2048),
                          MakeUintegerAccessor(&BsdudpStack::m_mbufs),
                          MakeUintegerChecker<uint32_t>(1, 65535))
            .AddAttribute("Clusters",
                          "How many clusters of 2,048 bytes the pool has.",
                          UintegerValue(512),
                          MakeUintegerAccessor(&BsdudpStack::m_clusters),
                          MakeUintegerChecker<uint32_t>(0, 4096))
            .AddAttribute("FirstId",
                          "The IP identification of the first datagram.",
                          UintegerValue(1),
                          MakeUintegerAccessor(&BsdudpStack::m_firstId),
                          MakeUintegerChecker<uint16_t>())
            .AddAttribute("Gateway",
                          "The neighbour that gets packets for other networks, if the device needs "
                          "ARP. Without one they're dropped.",
                          Ipv4AddressValue(Ipv4Address("0.0.0.0")),
                          MakeIpv4AddressAccessor(&BsdudpStack::m_gateway),
                          MakeIpv4AddressChecker())
            .AddAttribute("Tick",
                          "The time between two ticks. After 60 of them a datagram that lacks "
                          "fragments is dropped.",
                          TimeValue(MilliSeconds(500)),
                          MakeTimeAccessor(&BsdudpStack::m_tick),
                          MakeTimeChecker(TimeStep(1)))
            .AddTraceSource("Tx",
                            "A packet leaves by the device.",
                            MakeTraceSourceAccessor(&BsdudpStack::m_txTrace),
                            "ns3::BsdudpStack::PacketTracedCallback")
            .AddTraceSource("Rx",
                            "A packet came from the device.",
                            MakeTraceSourceAccessor(&BsdudpStack::m_rxTrace),
                            "ns3::BsdudpStack::PacketTracedCallback")
            .AddTraceSource("Drop",
                            "A packet or a datagram was dropped, with the cause.",
                            MakeTraceSourceAccessor(&BsdudpStack::m_dropTrace),
                            "ns3::BsdudpStack::DropTracedCallback")
            .AddTraceSource("Delivered",
                            "A datagram waits in a socket.",
                            MakeTraceSourceAccessor(&BsdudpStack::m_deliveredTrace),
                            "ns3::BsdudpStack::DeliveredTracedCallback")
            .AddTraceSource("Unfinished",
                            "How many datagrams wait for fragments.",
                            MakeTraceSourceAccessor(&BsdudpStack::m_unfinished),
                            "ns3::TracedValueCallback::Uint32");
    return tid;
}

BsdudpStack::~BsdudpStack()
{
    bsdudp_end(&m_stack);
}

std::string
BsdudpStack::GetRefusal(Ptr<NetDevice> device)
{
    std::ostringstream reason;
    if (!device->GetNode())
    {
        reason << "it has no node";
    }
    else if (device->NeedsArp() && !Mac48Address::IsMatchingType(device->GetAddress()))
    {
        reason << "a " << device->GetInstanceTypeId().GetName()
               << " needs ARP, and its hardware address doesn't have 48 bits";
    }
    const uint16_t greatest = device->NeedsArp() ? GREATEST_MTU_ON_ETHERNET : GREATEST_MTU;
    if (reason.str().empty() && (device->GetMtu() < LEAST_MTU || device->GetMtu() > greatest))
    {
        reason << "its MTU must be " << LEAST_MTU << " to " << greatest << ", not "
               << device->GetMtu() << ", before the stack is installed";
    }
    return reason.str();
}

void
BsdudpStack::Start(Ptr<NetDevice> device, Ipv4Address address, Ipv4Mask mask)
{
    NS_LOG_FUNCTION(this << device << address << mask);
    const std::string refusal = GetRefusal(device);
    NS_ABORT_MSG_UNLESS(refusal.empty(), "bsdudp: no stack for this device: " << refusal);
    NS_ABORT_MSG_IF(m_device, "bsdudp: a stack must be started only once");
    m_address = address;
    m_broadcast = address.GetSubnetDirectedBroadcast(mask);
    m_device = device;
    m_node = device->GetNode();
    m_onEthernet = device->NeedsArp();
    Boot(mask);
    m_start = Simulator::Now();
    // a promiscuous handler gets the destination of a frame, too
    m_node->RegisterProtocolHandler(MakeCallback(&BsdudpStack::Receive, this),
                                    Ipv4L3Protocol::PROT_NUMBER,
                                    device,
                                    m_onEthernet);
    if (m_onEthernet)
    {
        m_node->RegisterProtocolHandler(MakeCallback(&BsdudpStack::Receive, this),
                                        ArpL3Protocol::PROT_NUMBER,
                                        device,
                                        true);
        m_tickEvent = Simulator::ScheduleNow(&BsdudpStack::Tick, this); // sends the announcement
    }
}

void
BsdudpStack::Boot(Ipv4Mask mask)
{
    const bsdudp_config config =
        {m_address.Get(), m_broadcast.Get(), m_mbufs, m_clusters, m_device->GetMtu(), m_firstId};
    bsdudp_link link = {{}, mask.Get(), m_gateway.Get(), 0};
    if (m_onEthernet)
    {
        Mac48Address::ConvertFrom(m_device->GetAddress()).CopyTo(link.mac);
    }
    const int answer = m_onEthernet ? bsdudp_ether_boot(&m_stack, &config, &link)
                                    : bsdudp_boot(&m_stack, &config);
    NS_ABORT_MSG_IF(answer != 0,
                    "bsdudp: no stack for " << m_address << " with the broadcast address "
                                             << m_broadcast << ": "
                                             << bsdudp_boot_strerror(answer,
                                                                     &config,
                                                                     m_onEthernet ? &link
                                                                                  : nullptr));
}

void
BsdudpStack::DoDispose()
{
    NS_LOG_FUNCTION(this);
    m_tickEvent.Cancel();
    if (m_node)
    {
        m_node->UnregisterProtocolHandler(MakeCallback(&BsdudpStack::Receive, this));
    }
    while (!m_sockets.empty())
    {
        m_sockets.begin()->second->Close();
    }
    m_fragments.Clear();
    m_sent.Clear();
    bsdudp_end(&m_stack);
    m_device = nullptr;
    m_node = nullptr;
    Object::DoDispose();
}

void
BsdudpStack::NotifyNewAggregate()
{
    NS_ABORT_MSG_IF(GetObject<Ipv4>() || GetObject<UdpL4Protocol>(),
                    "bsdudp: a node must have only one stack, bsdudp or ns-3's own: leave its "
                    "InternetStackHelper out");
    Object::NotifyNewAggregate();
}

Ptr<Socket>
BsdudpStack::CreateSocket()
{
    NS_LOG_FUNCTION(this);
    auto socket = CreateObject<BsdudpSocket>();
    socket->Open(this);
    return socket;
}

Ptr<NetDevice>
BsdudpStack::GetDevice() const
{
    return m_device;
}

Ipv4Address
BsdudpStack::GetAddress() const
{
    return m_address;
}

Ipv4Address
BsdudpStack::GetBroadcast() const
{
    return m_broadcast;
}

BsdudpStack::Counts
BsdudpStack::ReadCounts() const
{
    Counts counts{};
    for (uint32_t i = 0; i < COUNTERS; i++)
    {
        bsdudp_counter(&m_stack, i, &counts[i]);
    }
    return counts;
}

std::map<std::string, uint64_t>
BsdudpStack::GetCounters() const
{
    const Counts counts = ReadCounts();
    std::map<std::string, uint64_t> named;
    for (uint32_t i = 0; i < COUNTERS; i++)
    {
        named[bsdudp_counter_name(i)] = counts[i];
    }
    return named;
}

uint64_t
BsdudpStack::GetCounter(const std::string& name) const
{
    uint64_t value = 0;
    const uint32_t which = FindCounter(name);
    NS_ABORT_MSG_IF(which == COUNTERS, "bsdudp: unknown counter: " << name);
    bsdudp_counter(&m_stack, which, &value);
    return value;
}

uint64_t
BsdudpStack::GetTooLong() const
{
    return m_tooLong;
}

struct bsdudp_mbstat
BsdudpStack::GetUsage() const
{
    struct bsdudp_mbstat usage = {};
    bsdudp_mbstat(&m_stack, &usage);
    return usage;
}

uint32_t
BsdudpStack::GetUnfinished() const
{
    return m_unfinished;
}

bool
BsdudpStack::IsOnEthernet() const
{
    return m_onEthernet;
}

struct bsdudp_tallies
BsdudpStack::GetTallies() const
{
    struct bsdudp_tallies tallies = {};
    bsdudp_ether_tallies(&m_stack, &tallies);
    return tallies;
}

int
BsdudpStack::Send(int fd, const bsdudp_addr* to, Ptr<Packet> packet)
{
    NS_LOG_FUNCTION(this << fd << packet);
    CatchUp();
    const uint32_t length = packet->GetSize();
    const Counts before = IsTraced() ? ReadCounts() : Counts{};
    std::vector<uint8_t>& room = GetRoom(length);
    packet->CopyData(room.data(), length);
    const int answer = to ? bsdudp_sendto(&m_stack, fd, to, room.data(), length)
                          : bsdudp_send(&m_stack, fd, room.data(), length);
    if (answer == -BSDUDP_EMSGSIZE)
    {
        NoteTooLong(packet);
    }
    const BsdudpLinkDrops link(&m_stack);
    const auto leaving = TakePackets(packet);
    uint64_t readable = 0;
    bsdudp_readable(&m_stack, &readable);
    const auto readers = NoteArrivals(readable, packet, packet->Copy(), 0);
    ReportSendDrops(packet, before);
    Settle(packet);
    ReportLinkDrops(packet, link);
    Transmit(leaving);
    // as in ns-3's own loopback device, so that two sockets of a node don't call each other
    // recursively
    for (const auto& socket : readers)
    {
        Simulator::ScheduleNow(&BsdudpSocket::Wake, socket);
    }
    return answer;
}

void
BsdudpStack::NoteTooLong(Ptr<const Packet> packet)
{
    std::ostringstream cause;
    if (packet->GetSize() > BSDUDP_DATAGRAM)
    {
        cause << "send: a datagram of " << packet->GetSize() << " bytes, and at most "
              << BSDUDP_DATAGRAM << " can be sent";
    }
    else
    {
        cause << "send: a broadcast of " << packet->GetSize() << " bytes, longer than the MTU";
    }
    if (m_tooLong++ == 0)
    {
        std::clog << "bsdudp: node " << m_node->GetId() << ": not sent: " << cause.str()
                  << ". GetTooLong() counts further ones" << std::endl;
    }
    NS_LOG_INFO("dropped: " << cause.str());
    m_dropTrace(packet, cause.str());
}

bool
BsdudpStack::HasBytes(Ptr<const Packet> packet, const uint8_t* bytes, uint32_t length)
{
    static std::vector<uint8_t> room(BSDUDP_PACKET);
    return packet->GetSize() == length && packet->CopyData(room.data(), length) == length &&
           std::memcmp(room.data(), bytes, length) == 0;
}

Ptr<Packet>
BsdudpStack::Cut(Ptr<Packet> datagram, const uint8_t* bytes, uint32_t length)
{
    const BsdudpHeader header(bytes);
    if (header.offset + header.length <= datagram->GetSize())
    {
        Ipv4Header ip;
        ip.EnableChecksum();
        ip.SetSource(Ipv4Address(std::get<0>(header.key)));
        ip.SetDestination(Ipv4Address(std::get<1>(header.key)));
        ip.SetIdentification(std::get<2>(header.key));
        ip.SetProtocol(std::get<3>(header.key));
        ip.SetTtl(bytes[8]);
        ip.SetFragmentOffset(header.offset);
        header.more ? ip.SetMoreFragments() : ip.SetLastFragment();
        ip.SetPayloadSize(header.length);
        Ptr<Packet> cut =
            header.IsFragment() ? datagram->CreateFragment(header.offset, header.length) : datagram;
        cut->AddHeader(ip);
        if (HasBytes(cut, bytes, length))
        {
            return cut;
        }
    }
    NS_LOG_WARN("a packet of " << length << " bytes leaves without its tags");
    return Create<Packet>(bytes, length);
}

std::vector<BsdudpStack::Leaving>
BsdudpStack::TakePackets(Ptr<const Packet> packet)
{
    if (m_onEthernet)
    {
        m_sent.Add(packet);
        return TakeFrames();
    }
    std::vector<Leaving> leaving;
    uint8_t* bytes = GetRoom(BSDUDP_TX_ROOM).data();
    Ptr<Packet> datagram;
    int length;
    while ((length = bsdudp_tx(&m_stack, bytes, BSDUDP_TX_ROOM)) > 0)
    {
        if (!datagram)
        {
            UdpHeader udp;
            udp.SetSourcePort(bytes[20] << 8 | bytes[21]);
            udp.SetDestinationPort(bytes[22] << 8 | bytes[23]);
            udp.ForceChecksum(bytes[27] << 8 | bytes[26]); // it's written low byte first
            datagram = packet->Copy();
            datagram->AddHeader(udp);
        }
        leaving.push_back({Cut(datagram, bytes, length),
                           m_device->GetBroadcast(),
                           Ipv4L3Protocol::PROT_NUMBER});
    }
    return leaving;
}

std::vector<BsdudpStack::Leaving>
BsdudpStack::TakeFrames()
{
    std::vector<Leaving> leaving;
    uint8_t* frame = GetRoom(BSDUDP_ETHER_ROOM).data();
    int length;
    while ((length = bsdudp_ether_transmit(&m_stack, frame, BSDUDP_ETHER_ROOM)) > 0)
    {
        const uint8_t* bytes = frame + BsdudpFrame::LENGTH;
        length -= BsdudpFrame::LENGTH;
        const uint16_t protocol = BsdudpFrame::GetProtocol(frame);
        Ptr<Packet> datagram;
        if (protocol == Ipv4L3Protocol::PROT_NUMBER && bytes[9] == UdpL4Protocol::PROT_NUMBER)
        {
            datagram = m_sent.Take(bytes);
        }
        leaving.push_back({datagram ? Cut(datagram, bytes, length) : Create<Packet>(bytes, length),
                           BsdudpFrame::GetDestination(frame),
                           protocol});
    }
    if (!IsBsdudpRequesting(&m_stack))
    {
        m_sent.Clear(); // no packet waits
    }
    return leaving;
}

void
BsdudpStack::Transmit(const std::vector<Leaving>& leaving)
{
    for (const auto& it : leaving)
    {
        if (it.protocol == Ipv4L3Protocol::PROT_NUMBER)
        {
            m_txTrace(it.packet);
        }
        // the device may change a packet that it accepts
        if (!m_device->Send(it.packet, it.to, it.protocol))
        {
            NS_LOG_INFO("the device refused a packet of " << it.packet->GetSize() << " bytes");
            m_dropTrace(it.packet,
                        "device: it refused the packet, its queue is full or its link is down");
        }
    }
}

void
BsdudpStack::Receive(Ptr<NetDevice> device,
                     Ptr<const Packet> packet,
                     uint16_t protocol,
                     const Address& from,
                     const Address& to,
                     NetDevice::PacketType type)
{
    NS_LOG_FUNCTION(this << packet << protocol << from << to << type);
    if (type == NetDevice::PACKET_OTHERHOST)
    {
        return;
    }
    CatchUp();
    const uint32_t head = m_onEthernet ? BsdudpFrame::LENGTH : 0;
    const uint32_t length = std::min<uint32_t>(packet->GetSize(), BSDUDP_PACKET);
    std::vector<uint8_t>& room = GetRoom(head + length);
    packet->CopyData(room.data() + head, length);
    if (m_onEthernet)
    {
        BsdudpFrame::Write(room.data(), to, from, protocol);
    }
    const BsdudpLinkDrops link(&m_stack);
    std::vector<Ptr<BsdudpSocket>> readers;
    if (protocol == Ipv4L3Protocol::PROT_NUMBER)
    {
        m_rxTrace(packet);
        readers = ReceivePacket(packet, room, head);
    }
    else
    {
        Input(room, head + length);
    }
    if (m_onEthernet)
    {
        const auto leaving = TakeFrames();
        ReportLinkDrops(packet, link);
        Transmit(leaving);
        ScheduleTick();
    }
    for (const auto& socket : readers)
    {
        socket->Wake();
    }
}

struct bsdudp_fate
BsdudpStack::Input(const std::vector<uint8_t>& bytes, uint32_t length)
{
    struct bsdudp_fate fate = {};
    m_onEthernet ? bsdudp_ether_receive_fate(&m_stack, bytes.data(), length, &fate)
                 : bsdudp_rx_fate(&m_stack, bytes.data(), length, &fate);
    return fate;
}

std::vector<Ptr<BsdudpSocket>>
BsdudpStack::ReceivePacket(Ptr<const Packet> packet, std::vector<uint8_t>& bytes, uint32_t head)
{
    const uint32_t length = std::min<uint32_t>(packet->GetSize(), BSDUDP_PACKET);
    const Unsaid before = ReadUnsaid();
    const struct bsdudp_fate fate = Input(bytes, head + length);
    Ptr<const Packet> datagram = packet;
    uint32_t start = BsdudpHeader::LENGTH + UDP_LENGTH;
    if (fate.kind == BSDUDP_KEPT || fate.completed)
    {
        const BsdudpHeader header(bytes.data() + head);
        m_fragments.Add(header, packet);
        datagram = fate.completed ? m_fragments.Join(header.key) : nullptr;
        start = UDP_LENGTH;
    }
    const auto readers = NoteArrivals(fate.got, packet, datagram, start);
    ReportFate(packet, fate, before);
    Settle(packet);
    return readers;
}

std::vector<Ptr<BsdudpSocket>>
BsdudpStack::NoteArrivals(uint64_t sockets,
                          Ptr<const Packet> packet,
                          Ptr<const Packet> datagram,
                          uint32_t start)
{
    std::vector<Ptr<BsdudpSocket>> readers;
    for (int fd = BSDUDP_FIRST_FD; sockets != 0; fd++, sockets >>= 1)
    {
        if ((sockets & 1) != 0)
        {
            Ptr<BsdudpSocket> socket = m_sockets.at(fd);
            if (socket->NoteArrival(datagram, start))
            {
                readers.push_back(socket);
            }
        }
    }
    for (const auto& socket : readers)
    {
        NS_LOG_INFO("a datagram waits in descriptor " << socket->m_fd);
        m_deliveredTrace(packet, socket);
    }
    return readers;
}

bool
BsdudpStack::IsTraced() const
{
    return !m_dropTrace.IsEmpty() || g_log.IsEnabled(LOG_INFO);
}

BsdudpStack::Unsaid
BsdudpStack::ReadUnsaid() const
{
    static const uint32_t lacking = FindCounter("nobufs");
    Unsaid counts{0, 0};
    if (IsTraced())
    {
        bsdudp_counter(&m_stack, lacking, &counts.lacking);
        bsdudp_ether_noproto(&m_stack, &counts.protocols);
    }
    return counts;
}

void
BsdudpStack::ReportFate(Ptr<const Packet> packet,
                        const struct bsdudp_fate& fate,
                        const Unsaid& before)
{
    static const uint32_t full = FindCounter("udp.fullsock");
    static const uint32_t lacking = FindCounter("nobufs");
    static const uint32_t protocol = FindCounter("ip.noproto");
    if (!IsTraced())
    {
        return;
    }
    const Unsaid now = ReadUnsaid();
    const bool answered = m_onEthernet && now.protocols == before.protocols;
    if (fate.kind == BSDUDP_DROPPED &&
        !(fate.cause == protocol && (answered || (m_onEthernet && IsIcmpError(packet)))))
    {
        Drop(packet, fate.cause);
    }
    if (fate.lost != 0)
    {
        const uint64_t without = now.lacking - before.lacking;
        if (std::bitset<64>(fate.lost).count() > without)
        {
            Drop(packet, full);
        }
        if (without != 0)
        {
            Drop(packet, lacking);
        }
    }
}

void
BsdudpStack::Drop(Ptr<const Packet> packet, uint32_t counter)
{
    const std::string cause =
        std::string(bsdudp_counter_name(counter)) + ": " + bsdudp_counter_cause(counter);
    NS_LOG_INFO("dropped: " << cause);
    m_dropTrace(packet, cause);
}

void
BsdudpStack::ReportLinkDrops(Ptr<const Packet> packet, const BsdudpLinkDrops& before)
{
    for (const auto& it : BsdudpLinkDrops(&m_stack).GetSince(before))
    {
        for (uint64_t i = 0; i < it.count; i++)
        {
            NS_LOG_INFO("dropped: " << it.cause);
            m_dropTrace(it.current && packet ? packet : Ptr<const Packet>(Create<Packet>()),
                        it.cause);
        }
    }
}

void
BsdudpStack::ReportSendDrops(Ptr<const Packet> packet, const Counts& before)
{
    static const uint32_t reclaimed = FindCounter("ip.reclaimed");
    if (!IsTraced())
    {
        return;
    }
    const Counts counts = ReadCounts();
    for (uint32_t i = 0; i < COUNTERS; i++)
    {
        // unfinished datagrams don't belong to this packet
        if (counts[i] != before[i] && bsdudp_counter_cause(i) != nullptr && i != reclaimed)
        {
            Drop(packet, i);
        }
    }
}

void
BsdudpStack::Settle(Ptr<const Packet> packet)
{
    static const uint32_t reclaimed = FindCounter("ip.reclaimed");
    static const uint32_t timeout = FindCounter("ip.fragtimeout");
    const uint32_t unfinished = bsdudp_unfinished_len(&m_stack);
    if (m_fragments.GetN() != unfinished)
    {
        for (const auto& it : m_fragments.KeepThoseOf(&m_stack))
        {
            Drop(it, packet ? reclaimed : timeout);
        }
    }
    m_unfinished = unfinished;
    ScheduleTick();
}

void
BsdudpStack::Tick()
{
    NS_LOG_FUNCTION(this);
    if (m_onEthernet)
    {
        CatchUp();
        Transmit(TakeFrames());
        ScheduleTick();
        return;
    }
    bsdudp_tick(&m_stack);
    Settle(nullptr);
}

void
BsdudpStack::CatchUp()
{
    // ticks that weren't events change only ages, which the next call may depend on
    const int64_t due = (Simulator::Now() - m_start).GetTimeStep() / m_tick.GetTimeStep();
    for (; m_onEthernet && m_ticks < due; m_ticks++)
    {
        const BsdudpLinkDrops link(&m_stack);
        bsdudp_tick(&m_stack);
        Settle(nullptr);
        const auto leaving = TakeFrames();
        ReportLinkDrops(nullptr, link);
        Transmit(leaving);
    }
}

bool
BsdudpStack::NeedsTick() const
{
    return m_unfinished.Get() != 0 ||
           (m_onEthernet && (m_ticks < ANNOUNCING || IsBsdudpRequesting(&m_stack)));
}

void
BsdudpStack::ScheduleTick()
{
    if (!NeedsTick() || m_tickEvent.IsRunning())
    {
        return;
    }
    // at a multiple of the tick since the start: a datagram waits as long as if ticks never paused,
    // because a tick without unfinished datagrams changes nothing
    const int64_t tick = m_tick.GetTimeStep();
    const int64_t passed = (Simulator::Now() - m_start).GetTimeStep() % tick;
    m_tickEvent = Simulator::Schedule(TimeStep(tick - passed), &BsdudpStack::Tick, this);
}

} // namespace ns3
