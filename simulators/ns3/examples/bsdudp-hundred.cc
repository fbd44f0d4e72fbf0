/*
 * Copyright (c) 2026 The bsdudp authors
 *
 * SPDX-License-Identifier: BSD-2-Clause
 */

// A hundred nodes on one channel that loses packets: each sends datagrams, which are fragmented, to
// the node half way round. It prints how many arrived and the expected share: (1 - loss)^k for a
// datagram of k packets.
//
// The devices are ns3::SimpleNetDevice with PointToPointMode, so that no ARP is needed: every node
// receives every packet, and counts those for others in ip.cantforward.

#include "ns3/applications-module.h"
#include "ns3/bsdudp-module.h"
#include "ns3/core-module.h"
#include "ns3/network-module.h"

#include <cmath>
#include <iostream>

using namespace ns3;

int
main(int argc, char* argv[])
{
    uint32_t count = 100;
    uint32_t datagrams = 10;
    uint32_t size = 4000;
    double loss = 0.05;
    CommandLine cmd(__FILE__);
    cmd.AddValue("nodes", "How many nodes, an even number up to 250", count);
    cmd.AddValue("datagrams", "How many datagrams each node sends", datagrams);
    cmd.AddValue("size", "Bytes of a datagram, 12 to 9216", size);
    cmd.AddValue("loss", "Which share of the packets is lost, 0 to 1", loss);
    cmd.Parse(argc, argv);

    NodeContainer nodes;
    nodes.Create(count);
    SimpleNetDeviceHelper simple;
    simple.SetNetDevicePointToPointMode(true);
    simple.SetDeviceAttribute("DataRate", StringValue("100Mbps"));
    simple.SetChannelAttribute("Delay", StringValue("1ms"));
    auto channel = CreateObject<SimpleChannel>();
    NetDeviceContainer devices;
    for (uint32_t i = 0; i < count; i++)
    {
        devices.Add(simple.Install(nodes.Get(i), channel));
        auto errors = CreateObject<RateErrorModel>();
        errors->SetUnit(RateErrorModel::ERROR_UNIT_PACKET);
        errors->SetRate(loss);
        devices.Get(i)->SetAttribute("ReceiveErrorModel", PointerValue(errors));
        devices.Get(i)->SetMtu(1500);
    }

    Ipv4AddressHelper addresses("10.1.1.0", "255.255.255.0");
    BsdudpStackContainer stacks = BsdudpHelper().Install(nodes, devices, addresses);

    UdpServerHelper server(4000);
    ApplicationContainer servers = server.Install(nodes);
    servers.Start(Seconds(0.5));
    for (uint32_t i = 0; i < count; i++)
    {
        UdpClientHelper client(stacks.GetAddress((i + count / 2) % count), 4000);
        client.SetAttribute("MaxPackets", UintegerValue(datagrams));
        client.SetAttribute("Interval", TimeValue(MilliSeconds(500)));
        client.SetAttribute("PacketSize", UintegerValue(size));
        client.Install(nodes.Get(i)).Start(Seconds(1) + MilliSeconds(5 * i));
    }
    Simulator::Run();

    uint64_t received = 0;
    for (auto it = servers.Begin(); it != servers.End(); ++it)
    {
        received += DynamicCast<UdpServer>(*it)->GetReceived();
    }
    std::map<std::string, uint64_t> sums;
    for (auto it = stacks.Begin(); it != stacks.End(); ++it)
    {
        for (const auto& [name, value] : (*it)->GetCounters())
        {
            sums[name] += value;
        }
    }
    const uint32_t packets = size <= 1472 ? 1 : (size + 8 + 1479) / 1480;
    const double sent = static_cast<double>(count) * datagrams;
    std::cout << "received " << received << " of " << sent << ", which is " << received / sent
              << "; (1 - loss)^" << packets << " is " << std::pow(1 - loss, packets) << std::endl;
    for (const auto& [name, value] : sums)
    {
        std::cout << name << " " << value << std::endl;
    }
    Simulator::Destroy();
    return 0;
}
