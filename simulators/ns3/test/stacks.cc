/*
 * Copyright (c) 2026 The bsdudp authors
 *
 * SPDX-License-Identifier: BSD-2-Clause
 */

#include "pair.h"

namespace ns3
{

namespace
{

/// Trace sources: packets received, sent, dropped, delivered, and waiting.
void
CheckTraces()
{
    Pair pair(BOTH, 0, 512, 64);
    Traced client(pair.client);
    Traced server(pair.server);
    auto sender = Open(pair.nodes.Get(0));
    auto reader = Open(pair.nodes.Get(1));
    sender->Bind();
    reader->Bind(At("0.0.0.0", 7));
    // a packet of these bytes, from another host
    auto inject = [&pair](std::vector<uint8_t> bytes) {
        pair.devices.Get(0)->Send(Create<Packet>(bytes.data(), bytes.size()),
                                  pair.devices.Get(0)->GetBroadcast(),
                                  0x0800);
    };
    Simulator::Schedule(Seconds(1), [sender, inject] {
        sender->SendTo(Create<Packet>(3000), 0, At("10.0.0.2", 7));
        sender->SendTo(Create<Packet>(5), 0, At("10.0.0.2", 8));
        sender->SendTo(Create<Packet>(5), 0, At("10.0.0.7", 7));
        inject({0x45, 0, 0});
        inject({0x45, 0, 0, 28, 0, 1, 0, 0, 64, 17, 1, 2, 10, 0, 0, 9, 10, 0, 0, 2});
    });
    Simulator::Schedule(Seconds(0.8), [inject] {
        // the first eight bytes of a longer datagram from 10.0.0.9; the sum was worked out by
        // hand
        inject({0x45, 0, 0,  28, 0, 1, 0x20, 0, 64, 17, 0x46, 0xc6, 10, 0,
                0,    9, 10, 0,  0, 2, 0,    9, 0,  7,  0,    16,   0,  0});
    });
    // the first tick after it is at 1 second, and the sixtieth at 30.5
    Simulator::Schedule(Seconds(30.6), [&pair] {
        Same(pair.server->GetUnfinished(), 0U, "unfinished after 60 ticks");
    });
    Simulator::Schedule(Seconds(30.4), [&pair] {
        Same(pair.server->GetUnfinished(), 1U, "unfinished before 60 ticks");
    });
    Simulator::Schedule(Seconds(32), [reader] {
        Check(reader->Recv() && !reader->Recv(), "one datagram is delivered");
    });
    pair.Run(32, "traces");
    Same(client.tx, 5U, "Tx of the client");
    Same(client.rx, 0U, "Rx of the client");
    Same(server.rx, 8U, "Rx of the server");
    Same(server.delivered, 1U, "Delivered");
    Same(server.most, 2U, "the most Unfinished");
    const std::map<std::string, uint32_t> wanted = {{"ip.toosmall", 1},
                                                    {"ip.badsum", 1},
                                                    {"ip.cantforward", 1},
                                                    {"ip.fragtimeout", 1},
                                                    {"udp.noport", 1}};
    for (const auto& [name, times] : wanted)
    {
        Same(server.drops[name], times, "Drop for " + name);
        Same(pair.server->GetCounter(name), times, "counter " + name);
    }
    Same(server.drops.size(), wanted.size(), "causes of Drop");
    for (const auto& [name, value] : pair.server->GetCounters())
    {
        Same(value, pair.server->GetCounter(name), "GetCounters has " + name);
    }
}

/// A flood that isn't read empties the pool. Afterwards the stack works as before.
void
CheckFlood()
{
    Pair pair(BOTH, 0, 40, 12);
    Traced server(pair.server);
    auto sender = Open(pair.nodes.Get(0));
    auto reader = Open(pair.nodes.Get(1));
    sender->Bind();
    reader->Bind(At("0.0.0.0", 7));
    for (int i = 0; i < 200; i++)
    {
        Simulator::Schedule(MilliSeconds(1000 + 20 * i), [sender, i] {
            sender->SendTo(Create<Packet>(i % 3 == 0 ? 4000 : 1000), 0, At("10.0.0.2", 7));
        });
    }
    Simulator::Schedule(Seconds(10), [reader] {
        Check(bool(reader->Recv()), "what waits can be read after the flood");
        while (reader->Recv())
        {
        }
    });
    Simulator::Schedule(Seconds(11), [sender] {
        sender->SendTo(Create<Packet>(4000), 0, At("10.0.0.2", 7));
    });
    Simulator::Schedule(Seconds(12), [reader] {
        auto packet = reader->Recv();
        Check(packet && packet->GetSize() == 4000, "a datagram comes after the flood");
    });
    pair.Run(12, "flood");
    Check(server.drops["nobufs"] > 100, "the flood doesn't empty the pool");
    Same(server.drops["nobufs"], pair.server->GetCounter("nobufs"), "Drop for nobufs");
    Check(server.drops["ip.reclaimed"] > 0, "no unfinished datagram is given up");
}

/// A send that finds no buffers.
void
CheckPoor()
{
    Pair pair(BOTH, 0, 20, 4);
    auto sender = Open(pair.nodes.Get(0));
    sender->Bind();
    Same(sender->SendTo(Create<Packet>(9216), 0, At("10.0.0.2", 7)), -1, "no buffers: a send");
    Same(sender->GetErrno(), Socket::ERROR_AGAIN, "no buffers: its error");
    pair.Run(1, "a send that finds no buffers");
}

/// Sends that are too long: each is counted and reported, and the first one is a warning.
void
CheckTooLong()
{
    Pair pair(BOTH);
    Traced client(pair.client);
    std::ostringstream said;
    auto* clog = std::clog.rdbuf(said.rdbuf());
    auto sender = Open(pair.nodes.Get(0));
    sender->Bind();
    for (uint32_t length : {9216, 9217, 60000})
    {
        sender->SendTo(Create<Packet>(length), 0, At("10.0.0.2", 7));
    }
    sender->SetAllowBroadcast(true);
    sender->SendTo(Create<Packet>(1473), 0, At("10.0.0.255", 7));
    pair.Run(1, "sends that are too long");
    std::clog.rdbuf(clog);
    Same(pair.client->GetTooLong(), 3U, "sends that are too long");
    Same(pair.client->GetCounter("ip.localout"), 1U, "sends that leave");
    Same(client.drops["send"], 3U, "Drop for sends that are too long");
    const std::string text = said.str();
    Check(text.find("node 0: not sent: send: a datagram of 9217 bytes") != std::string::npos,
          "a warning: " + text);
    Same(std::count(text.begin(), text.end(), '\n'), 1, "lines of the warning");
}

/// Two nodes with bsdudp, and two routers with ns-3's own stack and static routes between them, as
/// docs/ns3.md says.
void
CheckRouters()
{
    NodeContainer ends;
    NodeContainer routers;
    ends.Create(2);
    routers.Create(2);
    InternetStackHelper().Install(routers);
    PointToPointHelper link;
    link.SetDeviceAttribute("DataRate", StringValue("10Mbps"));
    auto near = link.Install(ends.Get(0), routers.Get(0));
    auto middle = link.Install(routers);
    auto far = link.Install(routers.Get(1), ends.Get(1));
    Ipv4AddressHelper address("10.1.1.0", "255.255.255.0");
    auto client = BsdudpHelper().Install(near.Get(0), "10.1.1.1", "255.255.255.0");
    address.NewAddress();
    address.Assign(NetDeviceContainer(near.Get(1)));
    address.NewNetwork();
    address.Assign(middle);
    address.NewNetwork();
    address.Assign(NetDeviceContainer(far.Get(0)));
    auto server = BsdudpHelper().Install(far.Get(1), "10.1.3.2", "255.255.255.0");
    Ipv4StaticRoutingHelper routes;
    auto first = routes.GetStaticRouting(routers.Get(0)->GetObject<Ipv4>());
    first->AddNetworkRouteTo("10.1.3.0", "255.255.255.0", "10.1.2.2", 2);
    auto second = routes.GetStaticRouting(routers.Get(1)->GetObject<Ipv4>());
    second->AddNetworkRouteTo("10.1.1.0", "255.255.255.0", "10.1.2.1", 1);
    auto reader = Open(ends.Get(1));
    reader->Bind(At("0.0.0.0", 7));
    auto sender = Open(ends.Get(0));
    sender->Connect(At("10.1.3.2", 7));
    Simulator::Schedule(Seconds(1), [sender] {
        sender->Send(Create<Packet>(3000));
    });
    Simulator::Schedule(Seconds(2), [reader] {
        Address from;
        auto packet = reader->RecvFrom(from);
        Check(packet && packet->GetSize() == 3000, "a datagram over two routers");
        reader->SendTo(Create<Packet>(5), 0, from);
    });
    Simulator::Schedule(Seconds(3), [sender] {
        auto packet = sender->Recv();
        Check(packet && packet->GetSize() == 5, "a reply over two routers");
    });
    Simulator::Stop(Seconds(4));
    Simulator::Run();
    Simulator::Destroy();
}

/// Packets that the device rejects because its queue is full.
void
CheckFullDevice()
{
    Pair pair(BOTH);
    Traced client(pair.client);
    auto sender = Open(pair.nodes.Get(0));
    auto reader = Open(pair.nodes.Get(1));
    sender->Bind();
    reader->Bind(At("0.0.0.0", 7));
    reader->ShutdownRecv();
    Simulator::Schedule(Seconds(1), [sender] {
        for (int i = 0; i < 150; i++)
        {
            Same(sender->SendTo(Create<Packet>(100), 0, At("10.0.0.2", 7)), 100, "a send");
        }
    });
    pair.Run(2, "a full device");
    // one is being sent and a hundred wait: the length of ns-3's queue
    Same(client.drops["device"], 49U, "Drop of the device");
    Same(client.tx, 150U, "Tx of a full device");
}

} // namespace

void
CheckStacks()
{
    CheckTraces();
    CheckTooLong();
    CheckRouters();
    CheckFlood();
    CheckPoor();
    CheckFullDevice();
}

} // namespace ns3
