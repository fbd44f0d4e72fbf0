/*
 * Copyright (c) 2026 The bsdudp authors
 *
 * SPDX-License-Identifier: BSD-2-Clause
 */

// The second script of ns-3's tutorial, over bsdudp: a client on a point-to-point link sends
// datagrams to an echo server on a LAN.
//
//       10.1.1.0
//     n0 -------------- n1   n2   n3   n4
//        point-to-point  |    |    |    |
//                        ================
//                          LAN 10.1.2.0
//
// n1 is the router and has ns-3's own stack. The other nodes have bsdudp: n2 to n4 speak ARP, and
// n1 is their gateway. It prints what the client sends and receives, and how many packets the
// server receives.

#include "ns3/applications-module.h"
#include "ns3/bsdudp-module.h"
#include "ns3/core-module.h"
#include "ns3/csma-module.h"
#include "ns3/internet-module.h"
#include "ns3/network-module.h"
#include "ns3/point-to-point-module.h"

#include <iostream>

using namespace ns3;

int
main(int argc, char* argv[])
{
    uint32_t size = 1024;
    uint32_t count = 3;
    uint32_t extra = 3;
    bool pcap = false;
    CommandLine cmd(__FILE__);
    cmd.AddValue("size", "Bytes of a datagram, 0 to 9216", size);
    cmd.AddValue("count", "How many datagrams", count);
    cmd.AddValue("nCsma", "How many nodes with bsdudp the LAN has, 1 or more", extra);
    cmd.AddValue("pcap", "Write the frames of the LAN to bsdudp-second-*.pcap", pcap);
    cmd.Parse(argc, argv);

    NodeContainer p2pNodes;
    p2pNodes.Create(2);
    NodeContainer csmaNodes;
    csmaNodes.Create(extra);

    PointToPointHelper pointToPoint;
    pointToPoint.SetDeviceAttribute("DataRate", StringValue("5Mbps"));
    pointToPoint.SetChannelAttribute("Delay", StringValue("2ms"));
    NetDeviceContainer p2pDevices = pointToPoint.Install(p2pNodes);

    CsmaHelper csma;
    csma.SetChannelAttribute("DataRate", StringValue("100Mbps"));
    csma.SetChannelAttribute("Delay", TimeValue(NanoSeconds(6560)));
    NetDeviceContainer routerDevice = csma.Install(p2pNodes.Get(1));
    NetDeviceContainer csmaDevices =
        csma.Install(csmaNodes, DynamicCast<CsmaChannel>(routerDevice.Get(0)->GetChannel()));

    InternetStackHelper().Install(p2pNodes.Get(1));
    Ipv4AddressHelper address("10.1.1.0", "255.255.255.0");
    BsdudpHelper().Install(NetDeviceContainer(p2pDevices.Get(0)), address);
    address.Assign(NetDeviceContainer(p2pDevices.Get(1)));
    address.NewNetwork();
    Ipv4InterfaceContainer router = address.Assign(routerDevice);
    BsdudpHelper bsdudp;
    bsdudp.SetAttribute("Gateway", Ipv4AddressValue(router.GetAddress(0)));
    BsdudpStackContainer stacks = bsdudp.Install(csmaNodes, csmaDevices, address);

    UdpEchoServerHelper echoServer(9);
    echoServer.Install(csmaNodes.Get(extra - 1)).Start(Seconds(1));

    UdpEchoClientHelper echoClient(stacks.GetAddress(extra - 1), 9);
    echoClient.SetAttribute("MaxPackets", UintegerValue(count));
    echoClient.SetAttribute("PacketSize", UintegerValue(size));
    ApplicationContainer clientApps = echoClient.Install(p2pNodes.Get(0));
    clientApps.Start(Seconds(2));

    auto tell = [](const char* what) {
        return Callback<void, Ptr<const Packet>>([what](Ptr<const Packet> packet) {
            std::cout << Simulator::Now().As(Time::S) << " client " << what << " "
                      << packet->GetSize() << " bytes" << std::endl;
        });
    };
    clientApps.Get(0)->TraceConnectWithoutContext("Tx", tell("sends"));
    clientApps.Get(0)->TraceConnectWithoutContext("Rx", tell("receives"));

    if (pcap)
    {
        csma.EnablePcap("bsdudp-second", csmaDevices, true);
    }

    Simulator::Run();
    const auto tallies = stacks.Get(extra - 1)->GetTallies();
    std::cout << "server: " << stacks.Get(extra - 1)->GetCounter("ip.total")
              << " packets received, " << tallies.unresolved << " lacked a hardware address"
              << std::endl;
    Simulator::Destroy();
    return 0;
}
