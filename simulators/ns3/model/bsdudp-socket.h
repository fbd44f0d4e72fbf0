/*
 * Copyright (c) 2026 The bsdudp authors
 *
 * SPDX-License-Identifier: BSD-2-Clause
 */
#ifndef BSDUDP_SOCKET_H
#define BSDUDP_SOCKET_H

#include "bsdudp-stack.h"

#include "ns3/address.h"
#include "ns3/udp-socket.h"

#include <deque>

namespace ns3
{

/**
 * \ingroup bsdudp
 *
 * \brief A UDP socket of a BsdudpStack.
 *
 * It follows 4.4BSD in cases where ns-3's own sockets are more lenient: a second Bind() and a
 * SendTo() on a connected socket fail, the longest datagram has 9,216 bytes, and if a datagram is
 * longer than the buffer, the rest is lost. The attribute RcvBufSize is the size of the receive
 * queue (BSDUDP_SO_RCVBUF) if it is 0 to 65,535; 0 means 1. If it is greater, as by default, the
 * queue holds 41,600 bytes; on a socket that had a size, it means 65,535.
 *
 * | Refusal of the library | SocketErrno |
 * |---|---|
 * | EMSGSIZE | ERROR_MSGSIZE |
 * | EADDRINUSE | ERROR_ADDRINUSE |
 * | EADDRNOTAVAIL | ERROR_ADDRNOTAVAIL |
 * | EISCONN | ERROR_ISCONN |
 * | EDESTADDRREQ | ERROR_NOTCONN |
 * | EHOSTUNREACH | ERROR_NOROUTETOHOST |
 * | EWOULDBLOCK, ENOBUFS | ERROR_AGAIN |
 * | EACCES | ERROR_OPNOTSUPP |
 * | EBADF, EMFILE | ERROR_BADF |
 * | ENXIO | ERROR_NODEV |
 * | EINVAL | ERROR_INVAL |
 *
 * A socket can be bound to an IPv6 address, because ns-3's servers bind one as well as each IPv4
 * socket; it never receives anything and takes no descriptor. For any other address the call fails
 * with ERROR_AFNOSUPPORT.
 *
 * Time to live and type of service are always 64 and 0, regardless of the socket or a tag, and
 * there is no multicast. The other attributes of UdpSocket are accepted and have no effect.
 */
class BsdudpSocket : public UdpSocket
{
  public:
    /**
     * \brief Get the type ID.
     * \return the object TypeId
     */
    static TypeId GetTypeId();

    BsdudpSocket() = default;
    ~BsdudpSocket() override;

    // inherited from Socket
    SocketErrno GetErrno() const override;
    SocketType GetSocketType() const override;
    Ptr<Node> GetNode() const override;
    int Bind() override;
    int Bind6() override;
    int Bind(const Address& address) override;
    int Close() override;
    int ShutdownSend() override;
    int ShutdownRecv() override;
    int Connect(const Address& address) override;
    int Listen() override;
    uint32_t GetTxAvailable() const override;
    int Send(Ptr<Packet> p, uint32_t flags) override;
    int SendTo(Ptr<Packet> p, uint32_t flags, const Address& toAddress) override;
    uint32_t GetRxAvailable() const override;
    Ptr<Packet> Recv(uint32_t maxSize, uint32_t flags) override;
    Ptr<Packet> RecvFrom(uint32_t maxSize, uint32_t flags, Address& fromAddress) override;
    int GetSockName(Address& address) const override;
    int GetPeerName(Address& address) const override;
    void BindToNetDevice(Ptr<NetDevice> netdevice) override;
    bool SetAllowBroadcast(bool allowBroadcast) override;
    bool GetAllowBroadcast() const override;

    // inherited from UdpSocket
    int MulticastJoinGroup(uint32_t interface, const Address& groupAddress) override;
    int MulticastLeaveGroup(uint32_t interface, const Address& groupAddress) override;

    /**
     * \brief Lets other sockets with this option bind to the same address and port.
     * \param reusePort whether they may
     * \return whether it's set
     */
    bool SetReusePort(bool reusePort);

    /**
     * \return what SetReusePort() set
     */
    bool GetReusePort() const;

  protected:
    void DoDispose() override;

  private:
    friend class BsdudpStack;

    /// The data of a datagram that waits, in an ns-3 packet.
    struct Arrival
    {
        Ptr<const Packet> packet; ///< the packet, null if none has them
        uint32_t start;           ///< where they begin
    };

    /**
     * \brief Opens the socket.
     * \param stack the stack that it belongs to
     */
    void Open(Ptr<BsdudpStack> stack);

    /**
     * \brief Records a datagram that the stack's last call delivered, if there is one.
     * \param packet the ns-3 packet that contains its data, or null
     * \param start the offset at which they begin in it
     * \return whether a datagram arrived that can be read
     */
    bool NoteArrival(Ptr<const Packet> packet, uint32_t start);

    /// Notifies the application if something can be read.
    void Wake();

    /// \return how many datagrams wait
    uint32_t GetWaiting() const;

    /// Reads all datagrams that wait and discards them.
    void Flush();

    /**
     * \brief Stores the error of a result of the library.
     * \param answer the library's result
     * \return 0, or -1 if the call failed: GetErrno() returns the error
     */
    int Note(int answer) const;

    /**
     * \brief Lets a call fail.
     * \param error why
     * \return -1
     */
    int Refuse(SocketErrno error) const;

    /**
     * \brief Sends.
     * \param p the data
     * \param to where to, null for the peer
     * \return how many bytes were sent, or -1
     */
    int DoSend(Ptr<Packet> p, const bsdudp_addr* to);

    /// \return names and options; all 0 if the socket is closed
    bsdudp_name GetName() const;

    // inherited from UdpSocket
    void SetRcvBufSize(uint32_t size) override;
    uint32_t GetRcvBufSize() const override;

    // inherited from UdpSocket, without effect
    void SetIpMulticastTtl(uint8_t ipTtl) override;
    uint8_t GetIpMulticastTtl() const override;
    void SetIpMulticastIf(int32_t ipIf) override;
    int32_t GetIpMulticastIf() const override;
    void SetIpMulticastLoop(bool loop) override;
    bool GetIpMulticastLoop() const override;
    void SetMtuDiscover(bool discover) override;
    bool GetMtuDiscover() const override;

    Ptr<BsdudpStack> m_stack;                    ///< whose socket it is
    Ptr<Node> m_node;                            ///< the stack's node
    int m_fd{-1};                                ///< the descriptor, -1 if there is none
    Address m_silent;                            ///< the IPv6 address that it's bound to
    std::deque<Arrival> m_arrivals;              ///< an entry for each datagram that waits
    bool m_reusePort{false};                     ///< whether others may have its port, too
    uint32_t m_rcvBufSize{0};                    ///< the attribute RcvBufSize
    bool m_shutdownSend{false};                  ///< whether it sends no more
    bool m_shutdownRecv{false};                  ///< whether it receives no more
    mutable SocketErrno m_errno{ERROR_NOTERROR}; ///< of the last call
};

} // namespace ns3

#endif /* BSDUDP_SOCKET_H */
