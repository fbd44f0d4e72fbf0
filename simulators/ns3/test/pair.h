/*
 * Copyright (c) 2026 The bsdudp authors
 *
 * SPDX-License-Identifier: BSD-2-Clause
 */

#ifndef BSDUDP_TEST_PAIR_H
#define BSDUDP_TEST_PAIR_H

#include "ns3/bsdudp-module.h"
#include "ns3/core-module.h"
#include "ns3/csma-module.h"
#include "ns3/internet-module.h"
#include "ns3/network-module.h"
#include "ns3/point-to-point-module.h"

#include <iostream>
#include <map>
#include <sstream>
#include <string>
#include <vector>

namespace ns3
{

/// How many faults there were.
inline int g_faults = 0;

/// Reports a fault if a condition is false.
inline void
Check(bool holds, const std::string& what)
{
    if (!holds)
    {
        std::cerr << "cases: " << what << std::endl;
        g_faults++;
    }
}

/// Reports a fault if two values differ.
template <typename A, typename B>
void
Same(const A& is, const B& wanted, const std::string& what)
{
    std::ostringstream text;
    text << what << ": " << is << " in place of " << wanted;
    Check(is == wanted, text.str());
}

/// Which of two nodes has bsdudp. The other one has ns-3's own stack.
enum Who
{
    NONE = 0,
    CLIENT = 1,
    SERVER = 2,
    BOTH = 3
};

inline const char* const WHO[] = {"none", "client", "server", "both"};

/// The link between two nodes.
enum Link
{
    POINT_TO_POINT,
    ETHERNET
};

/// Two nodes on a link that loses packets.
struct Pair
{
    NodeContainer nodes;         ///< the client and the server
    NetDeviceContainer devices;  ///< their devices
    BsdudpStackContainer stacks; ///< those of them that have bsdudp
    Ptr<BsdudpStack> client;     ///< that of the client, or null
    Ptr<BsdudpStack> server;     ///< that of the server, or null

    explicit Pair(Who who,
                  double loss = 0,
                  uint32_t mbufs = 16384,
                  uint32_t clusters = 4096,
                  Link link = POINT_TO_POINT)
    {
        nodes.Create(2);
        link == ETHERNET ? Connect<CsmaHelper>("Channel") : Connect<PointToPointHelper>("Device");
        Ipv4AddressHelper addresses("10.0.0.0", "255.255.255.0");
        for (uint32_t i = 0; i < 2; i++)
        {
            auto errors = CreateObject<RateErrorModel>();
            errors->SetUnit(RateErrorModel::ERROR_UNIT_PACKET);
            errors->SetRate(loss);
            errors->AssignStreams(100 + i); // the same losses with either stack
            devices.Get(i)->SetAttribute("ReceiveErrorModel", PointerValue(errors));
            if ((who >> i & 1) == 0)
            {
                InternetStackHelper().Install(nodes.Get(i));
                addresses.Assign(devices.Get(i));
                continue;
            }
            BsdudpHelper bsdudp;
            bsdudp.SetAttribute("Mbufs", UintegerValue(mbufs));
            bsdudp.SetAttribute("Clusters", UintegerValue(clusters));
            stacks.Add(bsdudp.Install(nodes.Get(i), devices.Get(i), addresses).Get(0));
            (i == 0 ? client : server) = stacks.Get(stacks.GetN() - 1);
        }
    }

    /// Connects the nodes. The rate is an attribute of the channel or of the device.
    template <typename Helper>
    void Connect(const std::string& which)
    {
        Helper link;
        which == "Channel" ? link.SetChannelAttribute("DataRate", StringValue("10Mbps"))
                           : link.SetDeviceAttribute("DataRate", StringValue("10Mbps"));
        link.SetChannelAttribute("Delay", StringValue("2ms"));
        devices = link.Install(nodes);
    }

    /// Runs until no event is left, which must be soon after the last datagram.
    void Run(double last, const std::string& what)
    {
        Simulator::Schedule(Seconds(last + 40), [what] {
            Check(Simulator::IsFinished(), what + ": the simulation doesn't end");
            Simulator::Stop();
        });
        Simulator::Run();
        for (auto it = stacks.Begin(); it != stacks.End(); ++it)
        {
            const auto usage = (*it)->GetUsage();
            Same((*it)->GetUnfinished(), 0U, what + ": datagrams that wait for ever");
            Same(usage.free_mbufs, usage.mbufs, what + ": free mbufs at the end");
            Same(usage.free_clusters, usage.clusters, what + ": free clusters at the end");
        }
    }

    ~Pair()
    {
        Simulator::Destroy();
    }
};

/// The bytes that are sent: they differ at each offset.
inline std::vector<uint8_t>
Pattern(uint32_t size)
{
    std::vector<uint8_t> bytes(size);
    for (uint32_t i = 0; i < size; i++)
    {
        bytes[i] = static_cast<uint8_t>(i * 7 + i / 256);
    }
    return bytes;
}

/// Whether a packet has them.
inline bool
IsPattern(Ptr<const Packet> packet)
{
    std::vector<uint8_t> bytes(packet->GetSize());
    packet->CopyData(bytes.data(), bytes.size());
    return bytes == Pattern(bytes.size());
}

/// A socket of a node.
inline Ptr<Socket>
Open(Ptr<Node> node)
{
    return Socket::CreateSocket(node, UdpSocketFactory::GetTypeId());
}

/// An IPv4 address with a port.
inline Address
At(const char* address, uint16_t port)
{
    return InetSocketAddress(Ipv4Address(address), port);
}

/// The reports of a stack's trace sources.
struct Traced
{
    uint32_t tx = 0;                       ///< packets that left
    uint32_t rx = 0;                       ///< packets that came
    uint32_t delivered = 0;                ///< datagrams that came into a socket
    uint32_t most = 0;                     ///< the most unfinished datagrams at a time
    std::map<std::string, uint32_t> drops; ///< what was dropped, by its cause

    explicit Traced(Ptr<BsdudpStack> stack)
    {
        stack->TraceConnectWithoutContext("Tx", Counting(tx));
        stack->TraceConnectWithoutContext("Rx", Counting(rx));
        stack->TraceConnectWithoutContext("Drop",
                                          Callback<void, Ptr<const Packet>, const std::string&>(
                                              [this](Ptr<const Packet>, const std::string& cause) {
                                                  drops[cause.substr(0, cause.find(':'))]++;
                                              }));
        stack->TraceConnectWithoutContext("Delivered",
                                          Callback<void, Ptr<const Packet>, Ptr<const Socket>>(
                                              [this](Ptr<const Packet>, Ptr<const Socket>) {
                                                  delivered++;
                                              }));
        stack->TraceConnectWithoutContext(
            "Unfinished",
            Callback<void, uint32_t, uint32_t>([this](uint32_t, uint32_t now) {
                most = std::max(most, now);
            }));
    }

    static Callback<void, Ptr<const Packet>> Counting(uint32_t& counter)
    {
        return Callback<void, Ptr<const Packet>>([&counter](Ptr<const Packet>) {
            counter++;
        });
    }
};

/// Datagrams of all lengths at which something changes, by ns-3's echo server and client.
void CheckTable();

/// The same on a CSMA channel.
void CheckEthernetTable();

/// The other applications of ns-3 that use UdpSocketFactory.
void CheckApplications();

/// Sockets: each error with its SocketErrno, reads, tags, and two sockets of one node.
void CheckSockets();

/// Stacks: trace sources, floods, and a device that accepts no more packets.
void CheckStacks();

/// Hosts on an Ethernet, with ns-3's own nodes on the same CSMA channel.
void CheckEthernet();

} // namespace ns3

#endif /* BSDUDP_TEST_PAIR_H */
