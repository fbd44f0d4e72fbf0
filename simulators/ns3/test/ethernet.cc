/*
 * Copyright (c) 2026 The bsdudp authors
 *
 * SPDX-License-Identifier: BSD-2-Clause
 */

#include "pair.h"

#include "ns3/flow-id-tag.h"
#include "ns3/internet-apps-module.h"

namespace ns3
{

namespace
{

/// Nodes on a CSMA channel, 10.0.0.1 and so on. The first ones have bsdudp.
struct Lan
{
    NodeContainer nodes;         ///< all nodes
    NetDeviceContainer devices;  ///< their devices
    BsdudpStackContainer stacks; ///< those with bsdudp

    Lan(uint32_t count, uint32_t ours)
    {
        nodes.Create(count);
        devices = CsmaHelper().Install(nodes);
        Ipv4AddressHelper addresses("10.0.0.0", "255.255.255.0");
        for (uint32_t i = 0; i < count; i++)
        {
            if (i < ours)
            {
                stacks.Add(BsdudpHelper().Install(devices.Get(i), addresses).Get(0));
                continue;
            }
            InternetStackHelper().Install(nodes.Get(i));
            addresses.Assign(devices.Get(i));
        }
    }

    /// Runs until no event is left.
    void Run(double last, const std::string& what)
    {
        Simulator::Schedule(Seconds(last + 40), [what] {
            Check(Simulator::IsFinished(), what + ": the simulation doesn't end");
            Simulator::Stop();
        });
        Simulator::Run();
    }

    ~Lan()
    {
        Simulator::Destroy();
    }
};

/// Bytes that a socket receives, and from whom.
struct Reader
{
    Ptr<Socket> socket;
    uint32_t datagrams = 0;
    uint32_t wrong = 0; ///< with other bytes than were sent
    Ipv4Address from;   ///< the last sender

    Reader(Ptr<Node> node, uint16_t port)
        : socket(Open(node))
    {
        socket->Bind(At("0.0.0.0", port));
        socket->SetRecvCallback(Callback<void, Ptr<Socket>>([this](Ptr<Socket>) {
            Address sender;
            while (auto packet = socket->RecvFrom(sender))
            {
                datagrams++;
                wrong += !IsPattern(packet);
                from = InetSocketAddress::ConvertFrom(sender).GetIpv4();
            }
        }));
    }
};

/// Sends the pattern.
void
SendPattern(Ptr<Socket> socket, uint32_t size, const char* to, uint16_t port)
{
    auto bytes = Pattern(size);
    socket->SendTo(Create<Packet>(bytes.data(), size), 0, At(to, port));
}

/// ns-3's own node pings two of ours, and gets a reply for each request. A ping is no drop.
void
CheckPings()
{
    Lan lan(3, 2);
    Traced first(lan.stacks.Get(0));
    uint32_t replies = 0;
    for (const char* to : {"10.0.0.1", "10.0.0.2"})
    {
        for (const uint32_t size : {56U, 1472U, 4000U})
        {
            auto ping = CreateObject<V4Ping>();
            ping->SetAttribute("Remote", Ipv4AddressValue(to));
            ping->SetAttribute("Size", UintegerValue(size));
            lan.nodes.Get(2)->AddApplication(ping);
            ping->SetStartTime(Seconds(size == 56 ? 1 : 2.3));
            ping->SetStopTime(Seconds(size == 56 ? 5.5 : 5.8));
            ping->TraceConnectWithoutContext("Rtt", Callback<void, Time>([&replies, size](Time) {
                                                 replies += size < 4000;
                                             }));
        }
    }
    lan.Run(7, "pings");
    Same(replies, 2U * (5 + 4), "replies to pings");
    Same(lan.stacks.Get(0)->GetTallies().echoes, 9U, "echoes");
    Same(first.drops["ip.noproto"], 4U, "Drop for pings in fragments, which get no reply");
    Check(lan.stacks.Get(0)->IsOnEthernet(), "IsOnEthernet");
}

/// A broadcast, a closed port at each end, and an address that nobody has.
void
CheckNobody()
{
    Lan lan(3, 2);
    Traced ours(lan.stacks.Get(0));
    Traced other(lan.stacks.Get(1));
    Reader second(lan.nodes.Get(1), 7);
    Reader third(lan.nodes.Get(2), 7);
    auto socket = Open(lan.nodes.Get(0));
    socket->Bind();
    socket->SetAllowBroadcast(true);
    uint32_t unreachable = 0;
    auto theirs = Open(lan.nodes.Get(2));
    theirs->Bind();
    theirs->SetAttribute(
        "IcmpCallback",
        CallbackValue(Callback<void, Ipv4Address, uint8_t, uint8_t, uint8_t, uint32_t>(
            [&unreachable](Ipv4Address, uint8_t, uint8_t type, uint8_t code, uint32_t) {
                unreachable += type == 3 && code == 3;
            })));
    Simulator::Schedule(Seconds(1), [socket, theirs] {
        SendPattern(socket, 100, "10.0.0.255", 7); // to both
        SendPattern(socket, 100, "10.0.0.3", 8);   // a closed port of ns-3's own
        SendPattern(socket, 100, "10.0.0.9", 7);   // nobody
        SendPattern(socket, 100, "10.0.9.9", 7);   // no gateway
        SendPattern(theirs, 100, "10.0.0.2", 8);   // a closed port of ours
    });
    lan.Run(10, "nobody");
    Same(second.datagrams, 1U, "a broadcast to bsdudp");
    Same(third.datagrams, 1U, "a broadcast to ns-3's own");
    Same(second.wrong + third.wrong, 0U, "wrong broadcasts");
    Same(unreachable, 1U, "ICMP errors that ns-3's own socket receives");
    Same(other.drops["udp.noport"], 1U, "Drop for a closed port");
    Same(ours.drops["link.unresolved"], 1U, "Drop for an address that nobody has");
    Same(ours.drops["link.no_route"], 1U, "Drop without a gateway");
    Same(ours.drops["ip.noproto"], 0U, "Drop for an ICMP error that the host evaluated");
    Same(lan.stacks.Get(0)->GetCounter("ip.noproto"), 1U, "ICMP errors in ip.noproto");
}

/// The tag of a datagram that waits for a hardware address; and an exchange after half an hour.
void
CheckWaits()
{
    Lan lan(3, 2);
    auto reader = Open(lan.nodes.Get(1));
    reader->Bind(At("0.0.0.0", 7));
    auto socket = Open(lan.nodes.Get(0));
    socket->Bind();
    for (const double time : {1.0, 1.0, 2000.0})
    {
        Simulator::Schedule(Seconds(time), [socket, time] {
            auto packet = Create<Packet>(3000);
            packet->AddPacketTag(FlowIdTag(static_cast<uint32_t>(time)));
            socket->SendTo(packet, 0, At("10.0.0.2", 7));
        });
    }
    for (const double time : {2.0, 2.0, 2001.0})
    {
        Simulator::Schedule(Seconds(time), [reader, time] {
            auto packet = reader->Recv();
            FlowIdTag tag;
            Check(packet && packet->GetSize() == 3000, "a datagram that waited for ARP");
            Check(packet && packet->PeekPacketTag(tag), "the tag of a datagram that waited");
            Same(tag.GetFlowId(), static_cast<uint32_t>(time) - 1, "the value of its tag");
        });
    }
    lan.Run(2001, "waits");
    Same(lan.stacks.Get(0)->GetTallies().unresolved, 0U, "unresolved");
}

/// Two networks, with one of ns-3's own nodes as their router, which is the gateway of ours.
void
CheckGateway()
{
    NodeContainer ends;
    ends.Create(2);
    Ptr<Node> router = CreateObject<Node>();
    InternetStackHelper().Install(router);
    Ipv4AddressHelper addresses("10.1.1.0", "255.255.255.0");
    BsdudpStackContainer stacks;
    for (uint32_t i = 0; i < 2; i++)
    {
        auto devices = CsmaHelper().Install(NodeContainer(router, ends.Get(i)));
        addresses.Assign(NetDeviceContainer(devices.Get(0)));
        BsdudpHelper bsdudp;
        bsdudp.SetAttribute("Gateway", Ipv4AddressValue(i == 0 ? "10.1.1.1" : "10.1.2.1"));
        stacks.Add(bsdudp.Install(NetDeviceContainer(devices.Get(1)), addresses).Get(0));
        addresses.NewNetwork();
    }
    Reader reader(ends.Get(1), 7);
    auto socket = Open(ends.Get(0));
    socket->Bind();
    for (const uint32_t size : {1, 1400, 2800})
    {
        Simulator::Schedule(MilliSeconds(1000 + size), [socket, size] {
            SendPattern(socket, size, "10.1.2.2", 7);
        });
    }
    Simulator::Run();
    Same(reader.datagrams, 3U, "datagrams over a gateway");
    Same(reader.wrong, 0U, "wrong datagrams over a gateway");
    Same(reader.from, Ipv4Address("10.1.1.2"), "their sender");
    Simulator::Destroy();
}

} // namespace

void
CheckEthernet()
{
    CheckPings();
    CheckNobody();
    CheckWaits();
    CheckGateway();
}

} // namespace ns3
