/*
 * Copyright (c) 2026 The bsdudp authors
 *
 * SPDX-License-Identifier: BSD-2-Clause
 */

// bsdudp and ns-3's own stack, in both directions: each node sends echo requests to the other one.
//
//      10.1.1.1          10.1.1.2
//     n0 ---------------- n1
//     bsdudp              ns-3's own
//
// One Ipv4AddressHelper assigns both addresses. Each packet that bsdudp drops is printed with its
// cause: try --loss=0.1 --size=4000.

#include "ns3/applications-module.h"
#include "ns3/bsdudp-module.h"
#include "ns3/core-module.h"
#include "ns3/internet-module.h"
#include "ns3/network-module.h"
#include "ns3/point-to-point-module.h"

#include <iostream>

using namespace ns3;

namespace
{

/// How many echoes each node received.
uint32_t g_back[2] = {0, 0};

void
TellDrop(Ptr<const Packet> packet, const std::string& cause)
{
    std::cout << Simulator::Now().As(Time::S) << " bsdudp drops " << packet->GetSize() << " bytes, "
              << cause << std::endl;
}

} // namespace

int
main(int argc, char* argv[])
{
    uint32_t size = 1472;
    uint32_t count = 20;
    double loss = 0;
    CommandLine cmd(__FILE__);
    cmd.AddValue("size", "Bytes of a datagram, 0 to 9216", size);
    cmd.AddValue("count", "How many datagrams each node sends", count);
    cmd.AddValue("loss", "Which share of the packets is lost, 0 to 1", loss);
    cmd.Parse(argc, argv);

    NodeContainer nodes;
    nodes.Create(2);
    PointToPointHelper pointToPoint;
    pointToPoint.SetDeviceAttribute("DataRate", StringValue("10Mbps"));
    pointToPoint.SetChannelAttribute("Delay", StringValue("2ms"));
    NetDeviceContainer devices = pointToPoint.Install(nodes);
    for (uint32_t i = 0; i < 2; i++)
    {
        auto errors = CreateObject<RateErrorModel>();
        errors->SetUnit(RateErrorModel::ERROR_UNIT_PACKET);
        errors->SetRate(loss);
        devices.Get(i)->SetAttribute("ReceiveErrorModel", PointerValue(errors));
    }

    Ipv4AddressHelper addresses("10.1.1.0", "255.255.255.0");
    BsdudpHelper bsdudp;
    bsdudp.SetAttribute("Mbufs", UintegerValue(2048));
    bsdudp.SetAttribute("Clusters", UintegerValue(512));
    BsdudpStackContainer stacks = bsdudp.Install(nodes.Get(0), devices.Get(0), addresses);
    stacks.Get(0)->TraceConnectWithoutContext("Drop", MakeCallback(&TellDrop));

    InternetStackHelper internet;
    internet.Install(nodes.Get(1));
    Ipv4InterfaceContainer interfaces = addresses.Assign(devices.Get(1));

    UdpEchoServerHelper server(7);
    server.Install(nodes).Start(Seconds(0.5));
    const Ipv4Address peers[2] = {interfaces.GetAddress(0), stacks.GetAddress(0)};
    for (uint32_t i = 0; i < 2; i++)
    {
        UdpEchoClientHelper client(peers[i], 7);
        client.SetAttribute("MaxPackets", UintegerValue(count));
        client.SetAttribute("Interval", TimeValue(MilliSeconds(50)));
        client.SetAttribute("PacketSize", UintegerValue(size));
        ApplicationContainer apps = client.Install(nodes.Get(i));
        apps.Start(Seconds(1) + MilliSeconds(25 * i));
        apps.Get(0)->TraceConnectWithoutContext(
            "Rx",
            Callback<void, Ptr<const Packet>>([i](Ptr<const Packet>) {
                g_back[i]++;
            }));
    }

    Simulator::Run();
    std::cout << "back at bsdudp " << g_back[0] << " of " << count << ", at ns-3's own "
              << g_back[1] << " of " << count << std::endl;
    Simulator::Destroy();
    return 0;
}
