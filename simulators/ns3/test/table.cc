/*
 * Copyright (c) 2026 The bsdudp authors
 *
 * SPDX-License-Identifier: BSD-2-Clause
 */

#include "pair.h"

#include "ns3/applications-module.h"

#include <array>

namespace ns3
{

namespace
{

/// The numbers of datagrams that arrived.
struct Count
{
    uint32_t requests = 0; ///< to the server
    uint32_t echoes = 0;   ///< back to the client
    uint32_t wrong = 0;    ///< with other bytes than were sent

    bool operator==(const Count& other) const
    {
        return requests == other.requests && echoes == other.echoes && wrong == other.wrong;
    }
};

std::ostream&
operator<<(std::ostream& out, const Count& count)
{
    return out << count.requests << " requests and " << count.echoes << " echoes, " << count.wrong
               << " of them wrong";
}

/// ns-3's echo server and client.
Count
Echo(Who who, uint32_t size, double loss, uint32_t count, Link link = POINT_TO_POINT)
{
    Pair pair(who, loss, 16384, 4096, link);
    Count got;
    for (uint32_t i = 0; i < 2 && link == ETHERNET; i++)
    {
        // ns-3's own stack holds three packets for an unknown hardware address, so both are learnt
        // before datagrams of seven packets are sent
        auto first = Open(pair.nodes.Get(i));
        first->Bind();
        Simulator::Schedule(MilliSeconds(100 + 400 * i), [first, i] {
            first->SendTo(Create<Packet>(1), 0, At(i == 0 ? "10.0.0.2" : "10.0.0.1", 9));
        });
    }
    auto server = UdpEchoServerHelper(7).Install(pair.nodes.Get(1));
    UdpEchoClientHelper helper(Ipv4Address("10.0.0.2"), 7);
    helper.SetAttribute("MaxPackets", UintegerValue(count));
    helper.SetAttribute("Interval", TimeValue(MilliSeconds(50)));
    helper.SetAttribute("PacketSize", UintegerValue(size));
    auto client = helper.Install(pair.nodes.Get(0));
    if (size > 0)
    {
        auto bytes = Pattern(size);
        helper.SetFill(client.Get(0), bytes.data(), bytes.size(), bytes.size());
    }
    client.Start(Seconds(1));
    auto note = [&got, size](uint32_t& counter) {
        return Callback<void, Ptr<const Packet>>([&got, &counter, size](Ptr<const Packet> packet) {
            counter++;
            got.wrong += packet->GetSize() != size || !IsPattern(packet);
        });
    };
    server.Get(0)->TraceConnectWithoutContext("Rx", note(got.requests));
    client.Get(0)->TraceConnectWithoutContext("Rx", note(got.echoes));
    std::ostringstream what;
    what << WHO[who] << ", " << size << " bytes, loss " << loss;
    pair.Run(1 + 0.05 * count, what.str());
    return got;
}

/// The other applications of ns-3 that use UdpSocketFactory: how many bytes or datagrams arrive.
std::array<uint64_t, 4>
RunApplications(Who who)
{
    Pair pair(who);
    std::array<uint64_t, 4> got{};
    Ptr<Node> from = pair.nodes.Get(0);
    Ptr<Node> to = pair.nodes.Get(1);
    const Ipv4Address address("10.0.0.2");

    UdpServerHelper server(4000);
    auto servers = server.Install(to);
    UdpClientHelper client(address, 4000);
    client.SetAttribute("MaxPackets", UintegerValue(50));
    client.SetAttribute("Interval", TimeValue(MilliSeconds(40)));
    client.SetAttribute("PacketSize", UintegerValue(1024));
    client.Install(from).Start(Seconds(1));

    UdpServerHelper traced(4001);
    auto tracedServers = traced.Install(to);
    UdpTraceClientHelper tracing(address, 4001, "");
    auto tracer = tracing.Install(from);
    tracer.Start(Seconds(1));
    tracer.Stop(Seconds(3));

    uint16_t port = 4002;
    for (auto& sum : {&got[2], &got[3]})
    {
        PacketSinkHelper sink("ns3::UdpSocketFactory",
                              InetSocketAddress(Ipv4Address::GetAny(), port));
        sink.Install(to).Get(0)->TraceConnectWithoutContext(
            "Rx",
            Callback<void, Ptr<const Packet>, const Address&>(
                [sum](Ptr<const Packet> packet, const Address&) {
                    *sum += packet->GetSize();
                }));
        OnOffHelper onOff("ns3::UdpSocketFactory", InetSocketAddress(address, port));
        onOff.SetConstantRate(DataRate("200kbps"), port == 4002 ? 512 : 3000);
        auto apps = onOff.Install(from);
        apps.Start(Seconds(1));
        apps.Stop(Seconds(4));
        port++;
    }
    pair.Run(1001, std::string("applications, ") + WHO[who]); // OnOff leaves an event at that time
    got[0] = DynamicCast<UdpServer>(servers.Get(0))->GetReceived();
    got[1] = DynamicCast<UdpServer>(tracedServers.Get(0))->GetReceived();
    Same(DynamicCast<UdpServer>(servers.Get(0))->GetLost(), 0U, "datagrams that UdpServer misses");
    return got;
}

} // namespace

void
CheckTable()
{
    const uint32_t sizes[] = {0, 1, 72, 73, 207, 208, 1472, 1473, 9000, 9216, 9217};
    for (const double loss : {0.0, 0.02, 0.2})
    {
        for (const uint32_t size : sizes)
        {
            const uint32_t count = loss == 0 ? 30 : 200;
            const Count own = Echo(NONE, size, loss, count);
            for (const Who who : {CLIENT, SERVER, BOTH})
            {
                Count wanted = own;
                if (size > 9216)
                {
                    wanted = {who == SERVER ? own.requests : 0, 0, 0}; // bsdudp refuses this send
                }
                std::ostringstream what;
                what << "bsdudp at " << WHO[who] << ", " << size << " bytes, loss " << loss;
                Same(Echo(who, size, loss, count), wanted, what.str());
            }
            std::ostringstream what;
            what << "ns-3's own stacks, " << size << " bytes, loss " << loss;
            Check(loss == 0 ? own == Count{count, count, 0}
                            : own.requests > own.echoes && own.echoes > 0 && own.requests < count,
                  what.str() + ": nothing is tested, or nothing is lost");
        }
    }
}

void
CheckEthernetTable()
{
    for (const uint32_t size : {0, 1, 17, 18, 1472, 1473, 9000, 9216})
    {
        const Count own = Echo(NONE, size, 0, 30, ETHERNET);
        Check(own == Count{30, 30, 0}, "ns-3's own stacks on CSMA: an echo is missing");
        for (const Who who : {CLIENT, SERVER, BOTH})
        {
            std::ostringstream what;
            what << "bsdudp at " << WHO[who] << " on CSMA, " << size << " bytes";
            Same(Echo(who, size, 0, 30, ETHERNET), own, what.str());
        }
    }
}

void
CheckApplications()
{
    const auto own = RunApplications(NONE);
    const char* const names[] = {"UdpClient", "UdpTraceClient", "OnOff", "OnOff of 3,000 bytes"};
    for (uint32_t i = 0; i < own.size(); i++)
    {
        Check(own[i] > 0, std::string(names[i]) + ": nothing comes by ns-3's own stack");
    }
    for (const Who who : {CLIENT, SERVER, BOTH})
    {
        const auto ours = RunApplications(who);
        for (uint32_t i = 0; i < own.size(); i++)
        {
            Same(ours[i], own[i], std::string(names[i]) + ", bsdudp at " + WHO[who]);
        }
    }
}

} // namespace ns3
