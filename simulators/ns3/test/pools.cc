/*
 * Copyright (c) 2026 The bsdudp authors
 *
 * SPDX-License-Identifier: BSD-2-Clause
 */

// Which pool does a scenario need? Nodes on one channel that loses packets send datagrams of random
// lengths to each other, with ns-3's own stack and then with bsdudp and pools of several sizes. Two
// runs are alike if each node received the same datagrams. `default` is the pool that BsdudpHelper
// chooses.
//
// The bytes of a packet decide whether it's lost. A random number for each packet loses different
// ones in each run: when a datagram lacks fragments for 30 s, ns-3's own stack sends an ICMP error,
// and bsdudp doesn't.

#include "ns3/bsdudp-module.h"
#include "ns3/core-module.h"
#include "ns3/internet-module.h"
#include "ns3/network-module.h"

#include <iomanip>
#include <iostream>

using namespace ns3;

namespace
{

/// One datagram of a run.
struct Datagram
{
    double when;
    uint32_t from;
    uint32_t to;
    std::vector<uint8_t> bytes;
};

/// The datagrams that each node received: their number, and a sum of all their bytes.
using Received = std::vector<std::pair<uint64_t, uint64_t>>;

/// The stacks of a run: ns-3's own, bsdudp as it's installed, or bsdudp with this pool.
struct Stacks
{
    const char* name;
    uint32_t mbufs;
    uint32_t clusters;
};

const Stacks OWN = {"ns-3", 0, 0};
const Stacks POOLS[] = {{"default", 0, 0}, {"512", 512, 64}, {"65535", 65535, 4096}};

/// Loses packets of UDP by a sum over their addresses, fragment offset and data.
class LossByBytes : public ErrorModel
{
  public:
    LossByBytes(double rate, uint32_t salt)
        : m_rate(rate),
          m_salt(salt)
    {
    }

  private:
    bool DoCorrupt(Ptr<Packet> packet) override
    {
        Ipv4Header header;
        packet->PeekHeader(header);
        if (header.GetProtocol() != 17)
        {
            return false;
        }
        std::vector<uint8_t> bytes(packet->GetSize());
        packet->CopyData(bytes.data(), bytes.size());
        std::string told = std::to_string(m_salt) + '/' + std::to_string(header.GetFragmentOffset());
        told.append(bytes.begin() + 12, bytes.end());
        return static_cast<double>(Hash64(told)) / 18446744073709551616.0 < m_rate;
    }

    void DoReset() override
    {
    }

    double m_rate;
    uint32_t m_salt;
};

/// The bytes of a datagram, which differ from those of all others.
std::vector<uint8_t>
MakeBytes(uint32_t number, uint32_t length)
{
    std::vector<uint8_t> bytes(length);
    for (uint32_t at = 0; at < length; at++)
    {
        bytes[at] = ((number * 2654435761U) ^ (at / 4 * 2246822519U)) >> 8 * (at % 4);
    }
    return bytes;
}

std::vector<Datagram>
MakePlan(uint32_t nodes, double rate, double seconds, uint32_t longest, uint32_t seed)
{
    auto random = CreateObject<UniformRandomVariable>();
    random->SetStream(1000 + seed);
    std::vector<Datagram> plan(static_cast<std::size_t>(nodes * rate * seconds));
    for (auto& it : plan)
    {
        it.when = random->GetValue(1, 1 + seconds);
        it.from = random->GetInteger(0, nodes - 1);
        it.to = (it.from + random->GetInteger(1, nodes - 1)) % nodes;
        it.bytes = MakeBytes(&it - plan.data(), random->GetInteger(1, longest));
    }
    return plan;
}

Received
Play(const Stacks& stacks, const std::vector<Datagram>& plan, uint32_t count, double loss, int seed)
{
    NodeContainer nodes;
    nodes.Create(count);
    SimpleNetDeviceHelper simple;
    simple.SetNetDevicePointToPointMode(true);
    simple.SetDeviceAttribute("DataRate", StringValue("100Mbps"));
    NetDeviceContainer devices = simple.Install(nodes);
    Ipv4AddressHelper addresses("10.1.1.0", "255.255.255.0");
    for (uint32_t i = 0; i < count; i++)
    {
        auto errors = Create<LossByBytes>(loss, 1000 * seed + i);
        devices.Get(i)->SetAttribute("ReceiveErrorModel", PointerValue(errors));
        devices.Get(i)->SetMtu(1500);
    }
    BsdudpHelper bsdudp;
    if (stacks.mbufs)
    {
        bsdudp.SetAttribute("Mbufs", UintegerValue(stacks.mbufs));
        bsdudp.SetAttribute("Clusters", UintegerValue(stacks.clusters));
    }
    if (&stacks == &OWN)
    {
        InternetStackHelper().Install(nodes);
        addresses.Assign(devices);
    }
    else
    {
        bsdudp.Install(nodes, devices, addresses);
    }
    Received received(count);
    std::vector<Ptr<Socket>> sockets;
    for (uint32_t i = 0; i < count; i++)
    {
        sockets.push_back(Socket::CreateSocket(nodes.Get(i), UdpSocketFactory::GetTypeId()));
        sockets[i]->Bind(InetSocketAddress(Ipv4Address::GetAny(), 4000));
        sockets[i]->SetRecvCallback(Callback<void, Ptr<Socket>>([&received, i](Ptr<Socket> socket) {
            while (auto packet = socket->Recv())
            {
                std::vector<uint8_t> bytes(packet->GetSize());
                packet->CopyData(bytes.data(), bytes.size());
                received[i].first++;
                received[i].second += Hash64(std::string(bytes.begin(), bytes.end()));
            }
        }));
    }
    for (const auto& it : plan)
    {
        Simulator::Schedule(Seconds(it.when), [&sockets, &it] {
            const InetSocketAddress to(Ipv4Address(0x0a010101 + it.to), 4000);
            sockets[it.from]->SendTo(Create<Packet>(it.bytes.data(), it.bytes.size()), 0, to);
        });
    }
    Simulator::Run();
    Simulator::Destroy();
    return received;
}

} // namespace

int
main(int argc, char* argv[])
{
    uint32_t nodes = 6;
    uint32_t longest = 9000;
    uint32_t seeds = 15;
    double rate = 10;
    double seconds = 40;
    double only = -1;
    CommandLine cmd(__FILE__);
    cmd.AddValue("nodes", "How many nodes, 2 to 250", nodes);
    cmd.AddValue("longest", "Bytes of the longest datagram, 1 to 9216", longest);
    cmd.AddValue("rate", "How many datagrams each node sends in a second", rate);
    cmd.AddValue("seconds", "For how long", seconds);
    cmd.AddValue("loss", "The one loss to try, 0 to 1; by default five are tried", only);
    cmd.AddValue("seeds", "How many runs of each loss", seeds);
    cmd.Parse(argc, argv);
    // Each node receives every packet: ns-3's own stack forwards those for others without end.
    Config::SetDefault("ns3::Ipv4::IpForward", BooleanValue(false));
    GlobalValue::Bind("ChecksumEnabled", BooleanValue(true));
    std::cout << "loss";
    for (const auto& it : POOLS)
    {
        std::cout << std::setw(9) << it.name;
    }
    std::cout << "   runs alike of " << seeds << ", by mbufs of the pool" << std::endl;
    const std::vector<double> five = {0, 0.01, 0.05, 0.1, 0.2};
    for (const double loss : only < 0 ? five : std::vector<double>{only})
    {
        std::vector<uint32_t> alike(std::size(POOLS));
        for (uint32_t seed = 1; seed <= seeds; seed++)
        {
            const auto plan = MakePlan(nodes, rate, seconds, longest, seed);
            const Received wanted = Play(OWN, plan, nodes, loss, seed);
            for (std::size_t i = 0; i < std::size(POOLS); i++)
            {
                alike[i] += Play(POOLS[i], plan, nodes, loss, seed) == wanted;
            }
        }
        std::cout << std::setw(4) << loss;
        for (const uint32_t count : alike)
        {
            std::cout << std::setw(9) << count;
        }
        std::cout << std::endl;
    }
    return 0;
}
