/*
 * Copyright (c) 2026 The bsdudp authors
 *
 * SPDX-License-Identifier: BSD-2-Clause
 */

// The tests of libns3-bsdudp. If ns-3's own stack can do the same work, it's the reference. Without
// an argument all of them run: each fault is a line on standard error, and the status is 1 if there
// is one. --refuse=NAME makes an error that ends a program with a message.

#include "pair.h"

#include "ns3/applications-module.h"
#include "ns3/csma-module.h"
#include "ns3/internet-apps-module.h"

using namespace ns3;

namespace
{

/// The errors that end the program with a message.
void
Refuse(const std::string& name)
{
    Ipv4AddressHelper addresses("10.0.0.0", "255.255.255.0");
    NodeContainer nodes;
    nodes.Create(2);
    auto devices = PointToPointHelper().Install(nodes);
    if (name == "frame")
    {
        auto csma = CsmaHelper().Install(nodes);
        csma.Get(0)->SetMtu(1501);
        BsdudpHelper().Install(csma, addresses);
    }
    else if (name == "gateway")
    {
        BsdudpHelper bsdudp;
        bsdudp.SetAttribute("Gateway", Ipv4AddressValue("10.0.1.1"));
        bsdudp.Install(CsmaHelper().Install(nodes), addresses);
    }
    else if (name == "mtu")
    {
        devices.Get(0)->SetMtu(9000);
        BsdudpHelper().Install(nodes, devices, addresses);
    }
    else if (name == "device")
    {
        BsdudpHelper().Install(nodes, devices, addresses);
        BsdudpHelper().Install(nodes, PointToPointHelper().Install(nodes), addresses);
    }
    else if (name == "stack")
    {
        InternetStackHelper().Install(nodes);
        BsdudpHelper().Install(nodes, devices, addresses);
    }
    else if (name == "later")
    {
        BsdudpHelper().Install(nodes, devices, addresses);
        InternetStackHelper().Install(nodes);
    }
    else if (name == "address")
    {
        BsdudpHelper().Install(devices.Get(0), "10.0.0.1", "255.255.255.255");
    }
    else if (name == "count")
    {
        BsdudpHelper().Install(nodes.Get(0), devices, addresses);
    }
    else if (name == "bulk")
    {
        BsdudpHelper().Install(nodes, devices, addresses);
        BulkSendHelper("ns3::TcpSocketFactory", At("10.0.0.2", 9)).Install(nodes.Get(0));
        Simulator::Run();
    }
    else if (name == "ping")
    {
        BsdudpHelper().Install(nodes, devices, addresses);
        V4PingHelper("10.0.0.2").Install(nodes.Get(0));
        Simulator::Run();
    }
}

} // namespace

int
main(int argc, char* argv[])
{
    std::string refuse;
    CommandLine cmd(__FILE__);
    cmd.AddValue("refuse",
                 "frame, gateway, mtu, device, stack, later, address, count, bulk, ping",
                 refuse);
    cmd.Parse(argc, argv);
    GlobalValue::Bind("ChecksumEnabled", BooleanValue(true)); // for the runs without bsdudp
    if (!refuse.empty())
    {
        Refuse(refuse);
        std::cerr << "cases: " << refuse << " isn't refused" << std::endl;
        return 1;
    }
    CheckTable();
    CheckApplications();
    CheckSockets();
    CheckStacks();
    CheckEthernetTable();
    CheckEthernet();
    return g_faults == 0 ? 0 : 1;
}
