/*
 * Copyright (c) 2026 The bsdudp authors
 *
 * SPDX-License-Identifier: BSD-2-Clause
 */

// The first script of ns-3's tutorial, over bsdudp: a client sends datagrams to an echo server.
//
//       10.1.1.1
//     n0 -------------- n1
//        point-to-point
//
// The lines that differ are marked: they install the stack. It prints the packets sent and
// received, and the counters of both nodes.

#include "ns3/applications-module.h"
#include "ns3/bsdudp-module.h"
#include "ns3/core-module.h"
#include "ns3/network-module.h"
#include "ns3/point-to-point-module.h"

#include <iostream>

using namespace ns3;

int
main(int argc, char* argv[])
{
    uint32_t size = 1024;
    uint32_t count = 3;
    bool pcap = false;
    CommandLine cmd(__FILE__);
    cmd.AddValue("size", "Bytes of a datagram, 0 to 9216", size);
    cmd.AddValue("count", "How many datagrams", count);
    cmd.AddValue("pcap", "Write the packets to bsdudp-first-*.pcap", pcap);
    cmd.Parse(argc, argv);

    NodeContainer nodes;
    nodes.Create(2);

    PointToPointHelper pointToPoint;
    pointToPoint.SetDeviceAttribute("DataRate", StringValue("5Mbps"));
    pointToPoint.SetChannelAttribute("Delay", StringValue("2ms"));
    NetDeviceContainer devices = pointToPoint.Install(nodes);

    // instead of InternetStackHelper and Ipv4AddressHelper::Assign
    Ipv4AddressHelper address("10.1.1.0", "255.255.255.0");
    BsdudpStackContainer stacks = BsdudpHelper().Install(nodes, devices, address);

    UdpEchoServerHelper echoServer(9);
    ApplicationContainer serverApps = echoServer.Install(nodes.Get(1));
    serverApps.Start(Seconds(1));

    UdpEchoClientHelper echoClient(stacks.GetAddress(1), 9);
    echoClient.SetAttribute("MaxPackets", UintegerValue(count));
    echoClient.SetAttribute("PacketSize", UintegerValue(size));
    ApplicationContainer clientApps = echoClient.Install(nodes.Get(0));
    clientApps.Start(Seconds(2));

    auto tell = [](const char* what) {
        return Callback<void, Ptr<const Packet>>([what](Ptr<const Packet> packet) {
            std::cout << Simulator::Now().As(Time::S) << " client " << what << " "
                      << packet->GetSize() << " bytes" << std::endl;
        });
    };
    clientApps.Get(0)->TraceConnectWithoutContext("Tx", tell("sends"));
    clientApps.Get(0)->TraceConnectWithoutContext("Rx", tell("receives"));

    if (pcap)
    {
        pointToPoint.EnablePcapAll("bsdudp-first");
    }

    Simulator::Run();
    for (uint32_t i = 0; i < stacks.GetN(); i++)
    {
        std::cout << "node " << i << ":";
        for (const auto& [name, value] : stacks.Get(i)->GetCounters())
        {
            if (value != 0)
            {
                std::cout << " " << name << " " << value;
            }
        }
        std::cout << std::endl;
    }
    Simulator::Destroy();
    return 0;
}
