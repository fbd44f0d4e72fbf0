/*
 * Copyright (c) 2026 The bsdudp authors
 *
 * SPDX-License-Identifier: BSD-2-Clause
 */
#ifndef BSDUDP_SOCKET_FACTORY_H
#define BSDUDP_SOCKET_FACTORY_H

#include "ns3/ipv4-raw-socket-factory.h"
#include "ns3/tcp-socket-factory.h"
#include "ns3/udp-socket-factory.h"

namespace ns3
{

/**
 * \ingroup bsdudp
 *
 * \brief A node's UdpSocketFactory: applications that create sockets with it get sockets of its
 * BsdudpStack.
 */
class BsdudpSocketFactory : public UdpSocketFactory
{
  public:
    /**
     * \brief Get the type ID.
     * \return the object TypeId
     */
    static TypeId GetTypeId();

    Ptr<Socket> CreateSocket() override;
};

/**
 * \ingroup bsdudp
 *
 * \brief Replaces the factory of TCP, which the stack doesn't have: an application that creates a
 * TCP socket (BulkSendApplication) ends the program with a message, not with a null pointer.
 */
class BsdudpNoTcp : public TcpSocketFactory
{
  public:
    /**
     * \brief Get the type ID.
     * \return the object TypeId
     */
    static TypeId GetTypeId();

    Ptr<Socket> CreateSocket() override;
};

/**
 * \ingroup bsdudp
 *
 * \brief Replaces the factory of raw sockets, which the stack doesn't have, in the same way
 * (V4Ping).
 */
class BsdudpNoRaw : public Ipv4RawSocketFactory
{
  public:
    /**
     * \brief Get the type ID.
     * \return the object TypeId
     */
    static TypeId GetTypeId();

    Ptr<Socket> CreateSocket() override;
};

} // namespace ns3

#endif /* BSDUDP_SOCKET_FACTORY_H */
