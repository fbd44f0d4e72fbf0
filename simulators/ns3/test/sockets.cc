/*
 * Copyright (c) 2026 The bsdudp authors
 *
 * SPDX-License-Identifier: BSD-2-Clause
 */

#include "pair.h"

#include "ns3/flow-id-tag.h"

namespace ns3
{

namespace
{

/// The result of a call, and its error.
void
Answers(int answer, int wanted, Ptr<Socket> socket, Socket::SocketErrno error, const char* what)
{
    Same(answer, wanted, std::string(what) + " answers");
    Same(socket->GetErrno(), error, std::string(what) + " leaves");
}

/// Each error of a socket with its SocketErrno.
void
CheckRefusals()
{
    Pair pair(BOTH, 0, 64, 16);
    Ptr<Node> node = pair.nodes.Get(0);
    const Address peer = At("10.0.0.2", 9);
    auto a = Open(node);
    auto b = Open(node);
    Address name;
    Answers(a->Send(Create<Packet>(1), 0), -1, a, Socket::ERROR_NOTCONN, "a send to nobody");
    Answers(a->GetPeerName(name), -1, a, Socket::ERROR_NOTCONN, "the peer of none");
    Answers(a->Bind(At("10.0.0.9", 7)), -1, a, Socket::ERROR_ADDRNOTAVAIL, "a strange address");
    Answers(a->Bind(Mac48Address("00:00:00:00:00:01")), -1, a, Socket::ERROR_AFNOSUPPORT, "a MAC");
    Answers(a->Bind(At("10.0.0.1", 7)), 0, a, Socket::ERROR_NOTERROR, "bind");
    Answers(a->Bind(), -1, a, Socket::ERROR_INVAL, "a second bind");
    Answers(b->Bind(At("0.0.0.0", 7)), -1, b, Socket::ERROR_ADDRINUSE, "bind to a port in use");
    Answers(a->GetSockName(name), 0, a, Socket::ERROR_NOTERROR, "its name");
    Check(name == At("10.0.0.1", 7), "its name is another one");
    Check(!a->Recv() && a->GetErrno() == Socket::ERROR_AGAIN, "recv of nothing");
    Answers(a->Listen(), -1, a, Socket::ERROR_OPNOTSUPP, "listen");
    Answers(a->SendTo(Create<Packet>(1), 0, At("10.0.0.2", 0)),
            -1,
            a,
            Socket::ERROR_ADDRNOTAVAIL,
            "a send to port 0");
    Answers(a->SendTo(Create<Packet>(1), 0, At("224.0.0.1", 9)),
            -1,
            a,
            Socket::ERROR_NOROUTETOHOST,
            "a send to a group");
    Answers(a->SendTo(Create<Packet>(9217), 0, peer), -1, a, Socket::ERROR_MSGSIZE, "9,217 bytes");
    Answers(a->SendTo(Create<Packet>(100000), 0, peer), -1, a, Socket::ERROR_MSGSIZE, "100,000");
    const Address everyone = At("255.255.255.255", 9);
    Answers(a->SendTo(Create<Packet>(1), 0, everyone), -1, a, Socket::ERROR_OPNOTSUPP, "broadcast");
    Check(!a->GetAllowBroadcast() && a->SetAllowBroadcast(true) && a->GetAllowBroadcast(),
          "the option for broadcasts");
    Answers(a->SendTo(Create<Packet>(1), 0, everyone), 1, a, Socket::ERROR_NOTERROR, "with it");
    Answers(a->SendTo(Create<Packet>(1473), 0, everyone),
            -1,
            a,
            Socket::ERROR_MSGSIZE,
            "a long one");
    Answers(a->Connect(peer), 0, a, Socket::ERROR_NOTERROR, "connect");
    Answers(a->SendTo(Create<Packet>(1), 0, peer), -1, a, Socket::ERROR_ISCONN, "send to a peer");
    Check(a->GetPeerName(name) == 0 && name == peer, "the peer's name");
    Answers(a->Send(Create<Packet>(72), 0), 72, a, Socket::ERROR_NOTERROR, "send");

    const Address six = Inet6SocketAddress(Ipv6Address::GetAny(), 7);
    Answers(a->SendTo(Create<Packet>(1), 0, six), -1, a, Socket::ERROR_AFNOSUPPORT, "to IPv6");
    Answers(a->Connect(six), -1, a, Socket::ERROR_AFNOSUPPORT, "connect to IPv6");
    Answers(a->Bind(six), -1, a, Socket::ERROR_INVAL, "a second bind, to IPv6");
    Answers(b->Bind(six), 0, b, Socket::ERROR_NOTERROR, "bind to IPv6");
    Check(b->GetSockName(name) == 0 && name == six, "the name of IPv6");
    Answers(b->Send(Create<Packet>(1), 0), -1, b, Socket::ERROR_AFNOSUPPORT, "a send of IPv6");
    Check(!b->Recv() && b->GetErrno() == Socket::ERROR_AGAIN, "recv of IPv6");
    Answers(b->Close(), 0, b, Socket::ERROR_NOTERROR, "close of IPv6");
    Answers(b->Close(), -1, b, Socket::ERROR_BADF, "a second close");
    Answers(b->Bind(), -1, b, Socket::ERROR_BADF, "bind of a closed one");
    Answers(Open(node)->Bind6(), 0, a, Socket::ERROR_INVAL, "Bind6");

    a->ShutdownSend();
    Answers(a->Send(Create<Packet>(1), 0), -1, a, Socket::ERROR_SHUTDOWN, "send after shutdown");
    std::vector<Ptr<Socket>> others;
    for (int i = 0; i < 63; i++)
    {
        others.push_back(Open(node));
        Same(others.back()->Bind(), 0, "bind of one of 64 sockets");
    }
    auto last = Open(node);
    Answers(last->Bind(), -1, last, Socket::ERROR_BADF, "the 65th socket");
    Answers(others[0]->SendTo(Create<Packet>(9216), 0, At("10.0.0.1", 1)),
            9216,
            others[0],
            Socket::ERROR_NOTERROR,
            "9,216 bytes to itself");
    for (const auto& socket : others)
    {
        Same(socket->Close(), 0, "close");
    }
    Same(a->Close(), 0, "close");
    pair.Run(1, "refusals");
}

/// Tests a socket that receives.
void
CheckReading()
{
    Pair pair(BOTH, 0, 512, 64);
    auto sender = Open(pair.nodes.Get(0));
    auto reader = Open(pair.nodes.Get(1));
    auto deaf = Open(pair.nodes.Get(1));
    sender->Bind();
    reader->Bind(At("0.0.0.0", 7));
    deaf->Bind(At("0.0.0.0", 8));
    deaf->ShutdownRecv();
    auto send = [sender](uint32_t size, uint16_t port) {
        const auto bytes = Pattern(size);
        sender->SendTo(Create<Packet>(bytes.data(), size), 0, At("10.0.0.2", port));
    };
    Simulator::Schedule(Seconds(1), [send] {
        send(100, 7);
        send(2000, 7);
        send(0, 7);
        send(50, 8);
    });
    Simulator::Schedule(Seconds(2), [reader, deaf] {
        Address from;
        Same(reader->GetRxAvailable(), 100U, "the bytes of the oldest");
        auto first = reader->RecvFrom(40, 0, from); // the rest of it is lost
        Check(first && first->GetSize() == 40 && IsPattern(first), "the first 40 bytes");
        Check(InetSocketAddress::ConvertFrom(from).GetIpv4() == Ipv4Address("10.0.0.1"), "from");
        auto second = reader->Recv();
        Check(second && second->GetSize() == 2000 && IsPattern(second), "2,000 bytes");
        auto third = reader->Recv();
        Check(third && third->GetSize() == 0, "an empty datagram");
        Check(!reader->Recv() && reader->GetRxAvailable() == 0, "nothing more");
        Check(!deaf->Recv(), "a socket hears that was shut down");
    });
    pair.Run(2, "reading");
    Same(pair.server->GetCounter("udp.noport"), 0U, "udp.noport");
    Same(pair.server->GetCounters().size(), 26U, "the number of counters");
    Same(pair.server->GetCounter("ip.total"), 5U, "ip.total");
    Same(pair.server->GetCounter("ip.reassembled"), 1U, "ip.reassembled");
}

/// A datagram with tags goes from one node to another.
void
CheckTags(Who who, uint32_t size)
{
    std::ostringstream text;
    text << "tags, " << WHO[who] << ", " << size << " bytes";
    const std::string what = text.str();
    Pair pair(who);
    auto sender = Open(pair.nodes.Get(0));
    auto reader = Open(pair.nodes.Get(1));
    sender->Bind();
    reader->Bind(At("0.0.0.0", 7));
    uint64_t uid = 0;
    Simulator::Schedule(Seconds(1), [&] {
        const auto bytes = Pattern(size);
        auto packet = Create<Packet>(bytes.data(), size);
        packet->AddPacketTag(FlowIdTag(42));
        packet->AddByteTag(FlowIdTag(43), size - 20, size - 10);
        uid = packet->GetUid();
        sender->SendTo(packet, 0, At("10.0.0.2", 7));
    });
    Simulator::Schedule(Seconds(2), [&] {
        auto packet = reader->Recv();
        Check(packet && IsPattern(packet), what + ": it comes");
        if (!packet)
        {
            return;
        }
        FlowIdTag tag;
        Check(packet->PeekPacketTag(tag) && tag.GetFlowId() == 42, what + ": its packet tag");
        auto it = packet->GetByteTagIterator();
        Check(it.HasNext(), what + ": its byte tag");
        if (!it.HasNext())
        {
            return;
        }
        auto item = it.Next();
        item.GetTag(tag);
        Check(tag.GetFlowId() == 43 && item.GetStart() == size - 20 && item.GetEnd() == size - 10,
              what + ": its byte tag's place");
        Check(!it.HasNext(), what + ": another byte tag");
        Same(packet->GetUid(), uid, what + ": its number");
    });
    pair.Run(2, what);
}

/// Two sockets of one node, and a broadcast.
void
CheckLoopback()
{
    Pair pair(BOTH, 0, 512, 64);
    auto a = Open(pair.nodes.Get(0));
    auto b = Open(pair.nodes.Get(0));
    auto far = Open(pair.nodes.Get(1));
    a->Bind(At("0.0.0.0", 7));
    b->Bind(At("0.0.0.0", 8));
    far->Bind(At("0.0.0.0", 8));
    uint32_t rounds = 0;
    uint32_t depth = 0;
    uint32_t deepest = 0;
    // each replies to the other at once: ten thousand calls, none inside another
    auto answer = [&](Ptr<Socket> socket) {
        deepest = std::max(deepest, ++depth);
        Address from;
        while (auto packet = socket->RecvFrom(from))
        {
            if (++rounds < 10000)
            {
                socket->SendTo(packet, 0, from);
            }
        }
        depth--;
    };
    a->SetRecvCallback(Callback<void, Ptr<Socket>>(answer));
    b->SetRecvCallback(Callback<void, Ptr<Socket>>(answer));
    Simulator::Schedule(Seconds(1), [a] {
        auto packet = Create<Packet>(5000);
        packet->AddPacketTag(FlowIdTag(42));
        a->SendTo(packet, 0, At("127.0.0.1", 8));
    });
    Simulator::Schedule(Seconds(2), [&, a] {
        b->SetRecvCallback(MakeNullCallback<void, Ptr<Socket>>());
        a->SetAllowBroadcast(true);
        a->SendTo(Create<Packet>(100), 0, At("10.0.0.255", 8));
    });
    Simulator::Schedule(Seconds(3), [&] {
        Same(rounds, 10000U, "rounds by loopback");
        Same(deepest, 1U, "callbacks inside one another");
        for (const auto& socket : {b, far})
        {
            auto packet = socket->Recv();
            Check(packet && packet->GetSize() == 100 && !socket->Recv(), "a broadcast");
        }
    });
    pair.Run(3, "loopback");
}

/// Two sockets with one port, by the attribute: both receive a broadcast, and a third one can't
/// bind.
void
CheckReusePort()
{
    Pair pair(BOTH, 0, 512, 64);
    auto sender = Open(pair.nodes.Get(0));
    sender->SetAllowBroadcast(true);
    auto third = Open(pair.nodes.Get(1));
    Config::SetDefault("ns3::BsdudpSocket::ReusePort", BooleanValue(true));
    auto a = Open(pair.nodes.Get(1));
    auto b = Open(pair.nodes.Get(1));
    Config::SetDefault("ns3::BsdudpSocket::ReusePort", BooleanValue(false));
    Same(a->Bind(At("0.0.0.0", 7)), 0, "reuse: the first bind");
    Same(b->Bind(At("0.0.0.0", 7)), 0, "reuse: the second bind");
    Answers(third->Bind(At("0.0.0.0", 7)), -1, third, Socket::ERROR_ADDRINUSE, "reuse: a third");
    third->SetAttribute("ReusePort", BooleanValue(true));
    Same(third->Bind(At("10.0.0.2", 7)), 0, "reuse: another address");
    Simulator::Schedule(Seconds(1), [sender] {
        sender->SendTo(Create<Packet>(100), 0, At("10.0.0.255", 7));
    });
    Simulator::Schedule(Seconds(2), [a, b, third] {
        for (const auto& socket : {a, b})
        {
            auto packet = socket->Recv();
            Check(packet && packet->GetSize() == 100, "reuse: a broadcast to both");
        }
        Check(!third->Recv(), "reuse: a broadcast to another address");
    });
    pair.Run(2, "reuse");
}

/// The size of a socket's receive queue.
uint64_t
SizeOf(Ptr<Socket> socket)
{
    UintegerValue size;
    socket->GetAttribute("RcvBufSize", size);
    return size.Get();
}

/// Opens a socket with this default of RcvBufSize, on a port.
Ptr<Socket>
OpenSized(Ptr<Node> node, uint32_t size, uint16_t port)
{
    Config::SetDefault("ns3::UdpSocket::RcvBufSize", UintegerValue(size));
    auto socket = Open(node);
    Config::SetDefault("ns3::UdpSocket::RcvBufSize", UintegerValue(131072)); // ns-3's own
    Same(socket->Bind(At("0.0.0.0", port)), 0, "size: bind");
    return socket;
}

/// The values of the attribute, before and after a size was set.
void
CheckSizes()
{
    Pair pair(BOTH, 0, 64, 16);
    Ptr<Node> node = pair.nodes.Get(0);
    const std::vector<std::pair<uint32_t, uint64_t>> first{
        {131072, 41600}, {65536, 41600}, {65535, 65535}, {41600, 41600}, {1, 1}, {0, 1}};
    for (const auto& [given, wanted] : first)
    {
        auto socket = OpenSized(node, given, 7);
        Same(SizeOf(socket), wanted, "size: the first value of a socket");
        for (const uint32_t later : {1488U, 65536U, 512U})
        {
            socket->SetAttribute("RcvBufSize", UintegerValue(later));
            Same(SizeOf(socket), std::min(later, 65535U), "size: a later value");
        }
        socket->Close();
        Same(SizeOf(socket), 41600U, "size: of a closed socket");
    }
    pair.Run(1, "sizes");
}

/// A socket that nobody reads is flooded, and another one echoes. Returns how many of 1,000
/// datagrams come back.
uint32_t
Echoes(uint32_t flooded, uint32_t used)
{
    Pair pair(BOTH, 0, 40, 7);
    auto sender = OpenSized(pair.nodes.Get(0), 131072, 5000);
    auto unread = OpenSized(pair.nodes.Get(1), flooded, 7);
    auto echo = OpenSized(pair.nodes.Get(1), used, 9);
    uint32_t echoes = 0;
    echo->SetRecvCallback(Callback<void, Ptr<Socket>>([](Ptr<Socket> socket) {
        Address from;
        while (auto packet = socket->RecvFrom(from))
        {
            socket->SendTo(packet, 0, from);
        }
    }));
    sender->SetRecvCallback(Callback<void, Ptr<Socket>>([&echoes](Ptr<Socket> socket) {
        while (socket->Recv())
        {
            echoes++;
        }
    }));
    for (uint32_t i = 0; i < 1000; i++)
    {
        Simulator::Schedule(MilliSeconds(1000 + 2 * i), [sender] {
            sender->SendTo(Create<Packet>(1), 0, At("10.0.0.2", 7));
            sender->SendTo(Create<Packet>(400), 0, At("10.0.0.2", 9));
        });
    }
    Simulator::Schedule(Seconds(4), [unread] { unread->Close(); });
    pair.Run(4, "a flood");
    Check(pair.server->GetCounter("udp.fullsock") > 900 || flooded > 65535, "size: it isn't full");
    return echoes;
}

} // namespace

void
CheckSockets()
{
    CheckRefusals();
    CheckReading();
    for (const Who who : {CLIENT, SERVER, BOTH})
    {
        for (const uint32_t size : {40, 1472, 1473, 9216})
        {
            CheckTags(who, size);
        }
    }
    CheckLoopback();
    CheckReusePort();
    CheckSizes();
    Same(Echoes(512, 1488), 1000U, "size: echoes under a flood");
    Check(Echoes(131072, 131072) < 100, "size: a flood without sizes leaves echoes");
}

} // namespace ns3
