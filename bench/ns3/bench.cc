// ns-3's applications with bsdudp and with ns-3's own stack, in one process: the processor time of echoes and of a
// hundred nodes, in alternating rounds, and the growth of memory with the nodes, in a process for each row. ROUNDS sets
// another number of rounds than 5.

#include "ns3/applications-module.h"
#include "ns3/bsdudp-module.h"
#include "ns3/core-module.h"
#include "ns3/internet-module.h"
#include "ns3/network-module.h"
#include "ns3/point-to-point-module.h"

#include <algorithm>
#include <cstdio>
#include <cstdlib>
#include <functional>
#include <sys/resource.h>
#include <sys/wait.h>
#include <unistd.h>
#include <vector>

using namespace ns3;

namespace
{

/// Installs one of the two stacks, with addresses of a network.
void Install(bool ours, const NodeContainer &nodes, const NetDeviceContainer &devices, Ipv4AddressHelper &addresses)
{
    if (ours) {
        BsdudpHelper().Install(nodes, devices, addresses);
        return;
    }
    InternetStackHelper().Install(nodes);
    addresses.Assign(devices);
}

/// Echoes between the two nodes of this many pairs; returns how many came back.
uint64_t Echoes(bool ours, uint32_t pairs, uint32_t echoes, uint32_t size)
{
    uint64_t back = 0;
    Ipv4AddressHelper addresses("10.1.0.0", "255.255.255.0");
    PointToPointHelper link;
    link.SetDeviceAttribute("DataRate", StringValue("100Mbps"));
    for (uint32_t i = 0; i < pairs; i++) {
        NodeContainer nodes;
        nodes.Create(2);
        auto devices = link.Install(nodes);
        Install(ours, nodes, devices, addresses);
        addresses.NewNetwork();
        UdpEchoServerHelper(7).Install(nodes.Get(1));
        UdpEchoClientHelper client(Ipv4Address(Ipv4Address("10.1.0.2").Get() + 256 * i), 7);
        client.SetAttribute("MaxPackets", UintegerValue(echoes));
        client.SetAttribute("Interval", TimeValue(MilliSeconds(5)));
        client.SetAttribute("PacketSize", UintegerValue(size));
        auto apps = client.Install(nodes.Get(0));
        apps.Get(0)->TraceConnectWithoutContext(
            "Rx", Callback<void, Ptr<const Packet>>([&back](Ptr<const Packet>) { back++; }));
    }
    Simulator::Run();
    Simulator::Destroy();
    return back;
}

/// A hundred nodes on one channel, as in the example bsdudp-hundred, without loss; returns how many
/// datagrams arrived.
uint64_t Hundred(bool ours)
{
    const uint32_t count = 100;
    NodeContainer nodes;
    nodes.Create(count);
    SimpleNetDeviceHelper simple;
    simple.SetNetDevicePointToPointMode(true);
    simple.SetDeviceAttribute("DataRate", StringValue("100Mbps"));
    auto devices = simple.Install(nodes);
    for (uint32_t i = 0; i < count; i++)
        devices.Get(i)->SetMtu(1500);
    Ipv4AddressHelper addresses("10.1.0.0", "255.255.255.0");
    Install(ours, nodes, devices, addresses);
    auto servers = UdpServerHelper(4000).Install(nodes);
    for (uint32_t i = 0; i < count; i++) {
        UdpClientHelper client(Ipv4Address(Ipv4Address("10.1.0.1").Get() + (i + count / 2) % count), 4000);
        client.SetAttribute("MaxPackets", UintegerValue(5));
        client.SetAttribute("Interval", TimeValue(MilliSeconds(500)));
        client.SetAttribute("PacketSize", UintegerValue(4000));
        client.Install(nodes.Get(i)).Start(Seconds(1) + MilliSeconds(5 * i));
    }
    Simulator::Run();
    uint64_t received = 0;
    for (auto it = servers.Begin(); it != servers.End(); ++it)
        received += DynamicCast<UdpServer>(*it)->GetReceived();
    Simulator::Destroy();
    return received;
}

/// The processor time of this process in user mode, in milliseconds.
double UserTime()
{
    rusage usage;
    getrusage(RUSAGE_SELF, &usage);
    return usage.ru_utime.tv_sec * 1e3 + usage.ru_utime.tv_usec / 1e3;
}

/// Prints the least time of each stack, and their ratio.
void Compare(const char *name, uint64_t wanted, int rounds, const std::function<uint64_t(bool)> &run)
{
    double least[2] = {1e30, 1e30};
    for (int round = 0; round < rounds; round++) {
        for (const bool ours : {true, false}) {
            const double before = UserTime();
            const uint64_t came = run(ours);
            least[ours] = std::min(least[ours], UserTime() - before);
            NS_ABORT_MSG_IF(came != wanted, name << ": " << came << " came");
        }
    }
    std::printf("| %s | %.0f | %.0f | %.2f |\n", name, least[1], least[0], least[1] / least[0]);
}

/// The stacks of the nodes in a row, and the rows' names.
enum Kind { DEVICES, OWN, SMALL, DEFAULT };
const char *const NAMES[] = {"", "ns-3's own", "bsdudp, 64 mbufs and 16 clusters", "bsdudp, 512 mbufs and 64 clusters"};

/// The most resident memory of a process with this many nodes, in KB.
double Resident(uint32_t count, Kind kind)
{
    const pid_t process = fork();
    NS_ABORT_IF(process < 0);
    if (process == 0) {
        NodeContainer nodes;
        NetDeviceContainer devices;
        nodes.Create(count);
        PointToPointHelper link;
        for (uint32_t i = 0; i < count; i += 2)
            devices.Add(link.Install(nodes.Get(i), nodes.Get(i + 1)));
        Ipv4AddressHelper addresses("10.0.0.0", "255.255.0.0");
        if (kind == SMALL) {
            Config::SetDefault("ns3::BsdudpStack::Mbufs", UintegerValue(64));
            Config::SetDefault("ns3::BsdudpStack::Clusters", UintegerValue(16));
        }
        if (kind != DEVICES)
            Install(kind != OWN, nodes, devices, addresses);
        _exit(0);
    }
    int status;
    rusage usage;
    NS_ABORT_IF(wait4(process, &status, 0, &usage) != process || status != 0);
    return usage.ru_maxrss * 1.024;
}

} // namespace

int main()
{
    std::setvbuf(stdout, nullptr, _IOLBF, BUFSIZ);
    const char *named = std::getenv("ROUNDS");
    const int rounds = named ? std::atoi(named) : 5;
    GlobalValue::Bind("ChecksumEnabled", BooleanValue(true));
    // otherwise each node forwards what it receives on the one channel
    Config::SetDefault("ns3::Ipv4::IpForward", BooleanValue(false));
    Config::SetDefault("ns3::BsdudpStack::Mbufs", UintegerValue(512));
    Config::SetDefault("ns3::BsdudpStack::Clusters", UintegerValue(64));

    std::printf("\n| memory of a node, in KB, beside its device | 100 nodes | 1,000 nodes |\n|---|---:|---:|\n");
    for (const Kind kind : {OWN, SMALL, DEFAULT}) {
        double each[2];
        const uint32_t counts[2] = {100, 1000};
        for (int i = 0; i < 2; i++)
            each[i] = (Resident(counts[i], kind) - Resident(counts[i], DEVICES)) / counts[i];
        std::printf("| %s | %.1f | %.1f |\n", NAMES[kind], each[0], each[1]);
    }

    std::printf("\n| milliseconds of user time, the least | bsdudp | ns-3's own | ratio |\n|---|---:|---:|---:|\n");
    const auto echoes = [rounds](const char *name, uint32_t size) {
        Compare(name, 20000, rounds, [size](bool ours) { return Echoes(ours, 1, 20000, size); });
    };
    echoes("20,000 echoes of 2 bytes, on a point-to-point link", 2);
    echoes("of 1,000 bytes", 1000);
    echoes("of 9,000 bytes, in seven fragments each way", 9000);
    Compare("a hundred nodes in pairs, 400 echoes of 1,000 bytes each", 20000, rounds,
            [](bool ours) { return Echoes(ours, 50, 400, 1000); });
    Compare("a hundred nodes on one channel, 500 datagrams of 4,000 bytes in all, which each node receives", 500,
            rounds, Hundred);
    return 0;
}
