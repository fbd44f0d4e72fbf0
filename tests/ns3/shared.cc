// Four nodes with ns-3's own stack on one channel, and one datagram: prints how many packets were sent, at most MOST.
// With an argument it begins with setting.h, which has what docs/ns3.md says to set.
#include "ns3/core-module.h"
#include "ns3/internet-module.h"
#include "ns3/network-module.h"

#include <cstdio>
#include <cstdlib>

using namespace ns3;

namespace
{

const int MOST = 1000;
int g_sent = 0;

void
Sent(Ptr<const Packet>, Ptr<Ipv4>, uint32_t)
{
    if (++g_sent == MOST)
    {
        std::printf("%d\n", g_sent);
        std::exit(0);
    }
}

} // namespace

int
main(int argc, char**)
{
    if (argc > 1)
    {
#include "setting.h"
    }
    NodeContainer nodes;
    nodes.Create(4);
    SimpleNetDeviceHelper simple;
    simple.SetNetDevicePointToPointMode(true);
    NetDeviceContainer devices = simple.Install(nodes);
    InternetStackHelper().Install(nodes);
    Ipv4AddressHelper("10.1.1.0", "255.255.255.0").Assign(devices);
    Config::ConnectWithoutContext("/NodeList/*/$ns3::Ipv4L3Protocol/Tx", MakeCallback(&Sent));
    auto to = Socket::CreateSocket(nodes.Get(1), UdpSocketFactory::GetTypeId());
    to->Bind(InetSocketAddress(Ipv4Address::GetAny(), 4000));
    auto from = Socket::CreateSocket(nodes.Get(0), UdpSocketFactory::GetTypeId());
    Simulator::Schedule(Seconds(1), [from] {
        from->SendTo(Create<Packet>(100), 0, InetSocketAddress(Ipv4Address("10.1.1.2"), 4000));
    });
    Simulator::Run();
    std::printf("%d\n", g_sent);
    Simulator::Destroy();
}
