/*
 * Copyright (c) 2026 The bsdudp authors
 *
 * SPDX-License-Identifier: BSD-2-Clause
 */
#include "bsdudp-socket-factory.h"

#include "bsdudp-stack.h"

#include "ns3/fatal-error.h"
#include "ns3/node.h"
#include "ns3/socket.h"

namespace ns3
{

NS_OBJECT_ENSURE_REGISTERED(BsdudpSocketFactory);
NS_OBJECT_ENSURE_REGISTERED(BsdudpNoTcp);
NS_OBJECT_ENSURE_REGISTERED(BsdudpNoRaw);

TypeId
BsdudpSocketFactory::GetTypeId()
{
    static TypeId tid = TypeId("ns3::BsdudpSocketFactory")
                            .SetParent<UdpSocketFactory>()
                            .SetGroupName("Internet")
                            .AddConstructor<BsdudpSocketFactory>();
    return tid;
}

Ptr<Socket>
BsdudpSocketFactory::CreateSocket()
{
    return GetObject<BsdudpStack>()->CreateSocket();
}

TypeId
BsdudpNoTcp::GetTypeId()
{
    static TypeId tid = TypeId("ns3::BsdudpNoTcp")
                            .SetParent<TcpSocketFactory>()
                            .SetGroupName("Internet")
                            .AddConstructor<BsdudpNoTcp>();
    return tid;
}

Ptr<Socket>
BsdudpNoTcp::CreateSocket()
{
    NS_FATAL_ERROR("bsdudp: the stack of node "
                   << GetObject<Node>()->GetId()
                   << " has no TCP, which BulkSendApplication needs. Use OnOffApplication or "
                      "another application over ns3::UdpSocketFactory");
    return nullptr;
}

TypeId
BsdudpNoRaw::GetTypeId()
{
    static TypeId tid = TypeId("ns3::BsdudpNoRaw")
                            .SetParent<Ipv4RawSocketFactory>()
                            .SetGroupName("Internet")
                            .AddConstructor<BsdudpNoRaw>();
    return tid;
}

Ptr<Socket>
BsdudpNoRaw::CreateSocket()
{
    NS_FATAL_ERROR("bsdudp: the stack of node "
                   << GetObject<Node>()->GetId()
                   << " has no raw sockets, which V4Ping needs. Install V4Ping on a node with "
                      "ns-3's own stack");
    return nullptr;
}

} // namespace ns3
