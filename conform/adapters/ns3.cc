/*
 * ns-3's own IPv4: packets come over a SimpleNetDevice from a node without a stack, UDP sockets, the simulator's time.
 */
#include "kit.h"
#include "ns3/core-module.h"
#include "ns3/internet-module.h"
#include "ns3/network-module.h"
#include <map>
#include <vector>
using namespace ns3;

static Ptr<SimpleNetDevice> ours, wire_end;
static Ptr<Node> host;
static std::map<int, Ptr<Socket>> sockets;

static std::vector<uint8_t> BytesOf(Ptr<const Packet> packet)
{
    std::vector<uint8_t> bytes(packet->GetSize() + 1);
    packet->CopyData(bytes.data(), packet->GetSize());
    return bytes;
}

static void Arrives(Ptr<Socket> socket)
{
    Address from;
    int number = 0;
    for (auto &it : sockets)
        if (it.second == socket) number = it.first;
    while (Ptr<Packet> packet = socket->RecvFrom(from))
    {
        InetSocketAddress sender = InetSocketAddress::ConvertFrom(from);
        kit_got_at(number, sender.GetIpv4().Get(), sender.GetPort(), BytesOf(packet).data(), packet->GetSize());
    }
}

static bool Leaves(Ptr<NetDevice>, Ptr<const Packet> packet, uint16_t protocol, const Address &)
{
    if (protocol == 0x0800) kit_out(BytesOf(packet).data(), packet->GetSize());
    return true;
}

static void Run(int ms)
{
    Simulator::Stop(MilliSeconds(ms));
    Simulator::Run();
}

static void SocketOn(int number, int port)
{
    Ptr<Socket> socket = Socket::CreateSocket(host, UdpSocketFactory::GetTypeId());
    socket->SetAttribute("RcvBufSize", UintegerValue(1 << 22));
    socket->Bind(InetSocketAddress(Ipv4Address::GetAny(), port));
    socket->SetRecvCallback(MakeCallback(&Arrives));
    sockets[number] = socket;
}

static void Boot(int mtu)
{
    GlobalValue::Bind("ChecksumEnabled", BooleanValue(true));
    NodeContainer nodes;
    nodes.Create(2);
    Ptr<SimpleChannel> channel = CreateObject<SimpleChannel>();
    for (int i = 0; i < 2; i++)
    {
        Ptr<SimpleNetDevice> device = CreateObject<SimpleNetDevice>();
        device->SetAttribute("PointToPointMode", BooleanValue(true));
        device->SetAddress(Mac48Address::Allocate());
        device->SetMtu(i ? 65535 : mtu);
        device->SetChannel(channel);
        nodes.Get(i)->AddDevice(device);
        (i ? wire_end : ours) = device;
    }
    wire_end->SetReceiveCallback(MakeCallback(&Leaves));
    host = nodes.Get(0);
    InternetStackHelper internet;
    internet.SetIpv6StackInstall(false);
    internet.Install(host);
    Ptr<Ipv4> ipv4 = host->GetObject<Ipv4>();
    ipv4->SetAttribute("IpForward", BooleanValue(false));
    int32_t place = ipv4->AddInterface(ours);
    ipv4->AddAddress(place, Ipv4InterfaceAddress("10.0.0.1", "255.255.255.0"));
    ipv4->SetUp(place);
    Ipv4StaticRoutingHelper().GetStaticRouting(ipv4)->SetDefaultRoute("10.0.0.2", place);
    SocketOn(0, 7);
    Run(1);
}

static void Receive(const uint8_t *bytes, int length)
{
    wire_end->Send(Create<Packet>(bytes, length), ours->GetAddress(), 0x0800);
    Run(1);
}

static void ConnectTo(int number, uint32_t addr, int port)
{
    sockets[number]->Connect(InetSocketAddress(Ipv4Address(addr), port));
}

static int SendTo(int number, uint32_t addr, int port, const uint8_t *bytes, int length)
{
    int sent = sockets[number]->SendTo(Create<Packet>(bytes, length), 0, InetSocketAddress(Ipv4Address(addr), port));
    Run(1);
    return sent >= 0;
}

int main()
{
    struct kit_stack it = {};
    it.name = "ns-3 " NS3_VERSION;
    it.has = "out ping send mtu connect";
    it.boot = Boot;
    it.rx = Receive;
    it.wait = Run;
    it.connect = ConnectTo;
    it.send = SendTo;
    return kit_serve(&it);
}
