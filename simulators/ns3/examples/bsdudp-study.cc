/*
 * Copyright (c) 2026 The bsdudp authors
 *
 * SPDX-License-Identifier: BSD-2-Clause
 */

// A study: how many datagrams arrive, by their length and by the loss of packets, with bsdudp and
// with ns-3's own stack, compared with the law (1 - loss)^k for a datagram of k packets. It prints
// a table that bsdudp-study.py plots:
//
//     ./bsdudp-study > study.csv && python3 bsdudp-study.py study.csv study.png

#include "ns3/applications-module.h"
#include "ns3/bsdudp-module.h"
#include "ns3/core-module.h"
#include "ns3/internet-module.h"
#include "ns3/network-module.h"
#include "ns3/point-to-point-module.h"

#include <cmath>
#include <iostream>

using namespace ns3;

namespace
{

/// How many datagrams of a length arrive from one node at another.
uint64_t
Receive(bool ours, uint32_t size, double loss, uint32_t count, uint32_t seed)
{
    NodeContainer nodes;
    nodes.Create(2);
    PointToPointHelper pointToPoint;
    pointToPoint.SetDeviceAttribute("DataRate", StringValue("10Mbps"));
    NetDeviceContainer devices = pointToPoint.Install(nodes);
    auto errors = CreateObject<RateErrorModel>();
    errors->SetUnit(RateErrorModel::ERROR_UNIT_PACKET);
    errors->SetRate(loss);
    errors->AssignStreams(10000 * seed + size); // the same losses for both stacks
    devices.Get(1)->SetAttribute("ReceiveErrorModel", PointerValue(errors));

    Ipv4AddressHelper addresses("10.1.1.0", "255.255.255.0");
    if (ours)
    {
        BsdudpHelper bsdudp;
        bsdudp.SetAttribute("Mbufs", UintegerValue(65535)); // fragments of 30 seconds wait
        bsdudp.SetAttribute("Clusters", UintegerValue(4096));
        bsdudp.Install(nodes, devices, addresses);
    }
    else
    {
        InternetStackHelper().Install(nodes);
        addresses.Assign(devices);
    }
    UdpServerHelper server(4000);
    ApplicationContainer apps = server.Install(nodes.Get(1));
    UdpClientHelper client(Ipv4Address("10.1.1.2"), 4000);
    client.SetAttribute("MaxPackets", UintegerValue(count));
    client.SetAttribute("Interval", TimeValue(MilliSeconds(50)));
    client.SetAttribute("PacketSize", UintegerValue(size));
    client.Install(nodes.Get(0)).Start(Seconds(1));
    Simulator::Run();
    const uint64_t received = DynamicCast<UdpServer>(apps.Get(0))->GetReceived();
    Simulator::Destroy();
    return received;
}

} // namespace

int
main(int argc, char* argv[])
{
    uint32_t count = 1000;
    uint32_t seed = 1;
    CommandLine cmd(__FILE__);
    cmd.AddValue("count", "How many datagrams of each length", count);
    cmd.AddValue("seed", "Another number loses other packets", seed);
    cmd.Parse(argc, argv);

    std::cout << "loss,bytes,packets,bsdudp,ns3,law" << std::endl;
    for (const double loss : {0.02, 0.1, 0.2})
    {
        for (const uint32_t size : {72, 700, 1400, 2200, 3700, 5200, 6600, 8100, 9200})
        {
            const uint32_t packets = (size + 8 + 1479) / 1480;
            const double sent = count;
            std::cout << loss << "," << size << "," << packets << ","
                      << Receive(true, size, loss, count, seed) / sent << ","
                      << Receive(false, size, loss, count, seed) / sent << ","
                      << std::pow(1 - loss, packets) << std::endl;
        }
    }
    return 0;
}
