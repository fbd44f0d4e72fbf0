/*
 * Copyright (c) 2026 The bsdudp authors
 *
 * SPDX-License-Identifier: BSD-2-Clause
 */
#include "bsdudp-socket.h"

#include "bsdudp-log.h"

#include "ns3/abort.h"
#include "ns3/boolean.h"
#include "ns3/inet-socket-address.h"
#include "ns3/inet6-socket-address.h"
#include "ns3/ipv6-address.h"

#include <algorithm>

namespace ns3
{

NS_OBJECT_ENSURE_REGISTERED(BsdudpSocket);

namespace
{

/// The size of a queue for which RcvBufSize is no size of the library.
constexpr uint32_t QUEUE_BYTES = 41600;
/// The largest size of the library.
constexpr uint32_t LARGEST_QUEUE = 65535;

/// The library's address for an IPv4 address. Each caller has checked it with IsMatchingType.
bsdudp_addr
ToLibrary(const Address& address)
{
    const InetSocketAddress it = InetSocketAddress::ConvertFrom(address);
    return {it.GetIpv4().Get(), it.GetPort()};
}

} // namespace

TypeId
BsdudpSocket::GetTypeId()
{
    static TypeId tid =
        TypeId("ns3::BsdudpSocket")
            .SetParent<UdpSocket>()
            .SetGroupName("Internet")
            .AddConstructor<BsdudpSocket>()
            .AddAttribute(
                "ReusePort",
                "Whether others that have it too may bind to the same address and port.",
                BooleanValue(false),
                MakeBooleanAccessor(&BsdudpSocket::SetReusePort, &BsdudpSocket::GetReusePort),
                MakeBooleanChecker());
    return tid;
}

BsdudpSocket::~BsdudpSocket()
{
    BsdudpSocket::Close();
}

void
BsdudpSocket::DoDispose()
{
    Close();
    m_stack = nullptr;
    m_node = nullptr;
    UdpSocket::DoDispose();
}

void
BsdudpSocket::Open(Ptr<BsdudpStack> stack)
{
    m_stack = stack;
    m_node = stack->m_node;
    const int fd = bsdudp_socket(&stack->m_stack);
    if (fd < 0)
    {
        NS_LOG_ERROR("no socket: " << bsdudp_strerror(fd));
        Note(fd);
        return;
    }
    m_fd = fd;
    stack->m_sockets[fd] = this;
    SetReusePort(m_reusePort);
    SetRcvBufSize(m_rcvBufSize);
}

Socket::SocketErrno
BsdudpSocket::GetErrno() const
{
    return m_errno;
}

Socket::SocketType
BsdudpSocket::GetSocketType() const
{
    return NS3_SOCK_DGRAM;
}

Ptr<Node>
BsdudpSocket::GetNode() const
{
    return m_node;
}

int
BsdudpSocket::Refuse(SocketErrno error) const
{
    m_errno = error;
    return -1;
}

int
BsdudpSocket::Note(int answer) const
{
    switch (answer < 0 ? -answer : 0)
    {
    case 0:
        m_errno = ERROR_NOTERROR;
        return 0;
    case BSDUDP_EMSGSIZE:
        return Refuse(ERROR_MSGSIZE);
    case BSDUDP_EADDRINUSE:
        return Refuse(ERROR_ADDRINUSE);
    case BSDUDP_EADDRNOTAVAIL:
        return Refuse(ERROR_ADDRNOTAVAIL);
    case BSDUDP_EISCONN:
        return Refuse(ERROR_ISCONN);
    case BSDUDP_EDESTADDRREQ:
        return Refuse(ERROR_NOTCONN);
    case BSDUDP_EHOSTUNREACH:
        return Refuse(ERROR_NOROUTETOHOST);
    case BSDUDP_EWOULDBLOCK:
    case BSDUDP_ENOBUFS:
    case BSDUDP_EQUEUE:
        return Refuse(ERROR_AGAIN);
    case BSDUDP_EACCES:
        return Refuse(ERROR_OPNOTSUPP);
    case BSDUDP_EBADF:
    case BSDUDP_EMFILE:
        return Refuse(ERROR_BADF);
    case BSDUDP_ENXIO:
        return Refuse(ERROR_NODEV);
    case BSDUDP_EINVAL:
    default:
        return Refuse(ERROR_INVAL);
    }
}

int
BsdudpSocket::Bind()
{
    return Bind(InetSocketAddress(Ipv4Address::GetAny(), 0));
}

int
BsdudpSocket::Bind6()
{
    return Bind(Inet6SocketAddress(Ipv6Address::GetAny(), 0));
}

int
BsdudpSocket::Bind(const Address& address)
{
    NS_LOG_FUNCTION(this << address);
    if (m_fd < 0)
    {
        return Refuse(m_silent.IsInvalid() ? ERROR_BADF : ERROR_INVAL);
    }
    if (Inet6SocketAddress::IsMatchingType(address))
    {
        const bsdudp_name name = GetName();
        if (name.local_port != 0 || name.local_ip != 0)
        {
            return Refuse(ERROR_INVAL);
        }
        Close();
        m_shutdownSend = m_shutdownRecv = false;
        m_silent = address;
        return Note(0);
    }
    if (!InetSocketAddress::IsMatchingType(address))
    {
        return Refuse(ERROR_AFNOSUPPORT);
    }
    const bsdudp_addr local = ToLibrary(address);
    return Note(bsdudp_bind(&m_stack->m_stack, m_fd, &local));
}

int
BsdudpSocket::Close()
{
    if (m_fd < 0)
    {
        const bool open = !m_silent.IsInvalid();
        m_silent = Address();
        return open ? Note(0) : Refuse(ERROR_BADF);
    }
    NS_LOG_FUNCTION(this);
    m_stack->m_sockets.erase(m_fd);
    m_arrivals.clear();
    const int answer = bsdudp_close(&m_stack->m_stack, m_fd);
    m_fd = -1;
    m_shutdownSend = m_shutdownRecv = true;
    return Note(answer);
}

int
BsdudpSocket::ShutdownSend()
{
    m_shutdownSend = true;
    return Note(0);
}

int
BsdudpSocket::ShutdownRecv()
{
    // as in 4.4BSD, waiting datagrams are lost
    m_shutdownRecv = true;
    Flush();
    return Note(0);
}

int
BsdudpSocket::Connect(const Address& address)
{
    NS_LOG_FUNCTION(this << address);
    int answer;
    if (!InetSocketAddress::IsMatchingType(address))
    {
        answer = Refuse(ERROR_AFNOSUPPORT);
    }
    else if (m_fd < 0)
    {
        answer = Refuse(m_silent.IsInvalid() ? ERROR_BADF : ERROR_AFNOSUPPORT);
    }
    else
    {
        const bsdudp_addr to = ToLibrary(address);
        answer = Note(bsdudp_connect(&m_stack->m_stack, m_fd, &to));
    }
    answer == 0 ? NotifyConnectionSucceeded() : NotifyConnectionFailed();
    return answer;
}

int
BsdudpSocket::Listen()
{
    return Refuse(ERROR_OPNOTSUPP);
}

uint32_t
BsdudpSocket::GetTxAvailable() const
{
    return BSDUDP_DATAGRAM;
}

int
BsdudpSocket::Send(Ptr<Packet> p, uint32_t flags)
{
    return DoSend(p, nullptr);
}

int
BsdudpSocket::SendTo(Ptr<Packet> p, uint32_t flags, const Address& toAddress)
{
    if (!InetSocketAddress::IsMatchingType(toAddress))
    {
        return Refuse(ERROR_AFNOSUPPORT);
    }
    const bsdudp_addr to = ToLibrary(toAddress);
    return DoSend(p, &to);
}

int
BsdudpSocket::DoSend(Ptr<Packet> p, const bsdudp_addr* to)
{
    if (m_fd < 0)
    {
        return Refuse(m_silent.IsInvalid() ? ERROR_BADF : ERROR_AFNOSUPPORT);
    }
    if (m_shutdownSend)
    {
        return Refuse(ERROR_SHUTDOWN);
    }
    const uint32_t length = p->GetSize();
    if (Note(m_stack->Send(m_fd, to, p)) != 0)
    {
        return -1;
    }
    NotifyDataSent(length);
    NotifySend(GetTxAvailable());
    return static_cast<int>(length);
}

uint32_t
BsdudpSocket::GetRxAvailable() const
{
    struct bsdudp_next next = {};
    return m_fd >= 0 && bsdudp_next(&m_stack->m_stack, m_fd, &next) == 0 ? next.len : 0;
}

uint32_t
BsdudpSocket::GetWaiting() const
{
    struct bsdudp_next next = {};
    return m_fd >= 0 && bsdudp_next(&m_stack->m_stack, m_fd, &next) == 0 ? next.waiting : 0;
}

void
BsdudpSocket::Flush()
{
    bsdudp_addr from;
    uint8_t none;
    while (m_fd >= 0 && bsdudp_recvfrom(&m_stack->m_stack, m_fd, &none, 0, &from) >= 0)
    {
    }
    m_arrivals.clear();
}

bool
BsdudpSocket::NoteArrival(Ptr<const Packet> packet, uint32_t start)
{
    if (m_shutdownRecv)
    {
        Flush();
        return false;
    }
    if (GetWaiting() == m_arrivals.size())
    {
        return false;
    }
    m_arrivals.push_back({packet, start});
    return true;
}

void
BsdudpSocket::Wake()
{
    if (!m_arrivals.empty())
    {
        NotifyDataRecv();
    }
}

Ptr<Packet>
BsdudpSocket::Recv(uint32_t maxSize, uint32_t flags)
{
    Address from;
    return RecvFrom(maxSize, flags, from);
}

Ptr<Packet>
BsdudpSocket::RecvFrom(uint32_t maxSize, uint32_t flags, Address& fromAddress)
{
    static std::vector<uint8_t> room(BSDUDP_PACKET);
    if (m_fd < 0)
    {
        Refuse(m_silent.IsInvalid() ? ERROR_BADF : ERROR_AGAIN);
        return nullptr;
    }
    bsdudp_addr from;
    const int length = bsdudp_recvfrom(&m_stack->m_stack,
                                       m_fd,
                                       room.data(),
                                       std::min<std::size_t>(maxSize, room.size()),
                                       &from);
    if (Note(length) != 0)
    {
        return nullptr;
    }
    const Arrival arrival = m_arrivals.front();
    m_arrivals.pop_front();
    fromAddress = InetSocketAddress(Ipv4Address(from.ip), from.port);
    if (arrival.packet && arrival.packet->GetSize() >= arrival.start + length)
    {
        Ptr<Packet> packet = arrival.packet->CreateFragment(arrival.start, length);
        if (BsdudpStack::HasBytes(packet, room.data(), length))
        {
            return packet;
        }
    }
    NS_LOG_WARN("a datagram of " << length << " bytes arrives without its tags");
    return Create<Packet>(room.data(), length);
}

bsdudp_name
BsdudpSocket::GetName() const
{
    bsdudp_name name = {};
    if (m_fd >= 0)
    {
        bsdudp_getsockname(&m_stack->m_stack, m_fd, &name);
    }
    return name;
}

int
BsdudpSocket::GetSockName(Address& address) const
{
    if (!m_silent.IsInvalid())
    {
        address = m_silent;
        return Note(0);
    }
    if (m_fd < 0)
    {
        return Refuse(ERROR_BADF);
    }
    const bsdudp_name name = GetName();
    address = InetSocketAddress(Ipv4Address(name.local_ip), name.local_port);
    return Note(0);
}

int
BsdudpSocket::GetPeerName(Address& address) const
{
    const bsdudp_name name = GetName();
    if (name.peer_port == 0)
    {
        return Refuse(ERROR_NOTCONN);
    }
    address = InetSocketAddress(Ipv4Address(name.peer_ip), name.peer_port);
    return Note(0);
}

void
BsdudpSocket::BindToNetDevice(Ptr<NetDevice> netdevice)
{
    NS_ABORT_MSG_IF(netdevice && (!m_stack || netdevice != m_stack->m_device),
                    "bsdudp: the device of a socket must be its stack's");
    UdpSocket::BindToNetDevice(netdevice);
}

bool
BsdudpSocket::SetAllowBroadcast(bool allowBroadcast)
{
    return m_fd >= 0 &&
           Note(bsdudp_setsockopt(&m_stack->m_stack, m_fd, BSDUDP_SO_BROADCAST, allowBroadcast)) ==
               0;
}

bool
BsdudpSocket::GetAllowBroadcast() const
{
    return GetName().broadcast != 0;
}

bool
BsdudpSocket::SetReusePort(bool reusePort)
{
    m_reusePort = reusePort;
    // the attribute has its first value before there is a descriptor
    return m_fd < 0 ||
           Note(bsdudp_setsockopt(&m_stack->m_stack, m_fd, BSDUDP_SO_REUSEPORT, reusePort)) == 0;
}

bool
BsdudpSocket::GetReusePort() const
{
    return m_reusePort;
}

int
BsdudpSocket::MulticastJoinGroup(uint32_t interface, const Address& groupAddress)
{
    return Refuse(ERROR_OPNOTSUPP);
}

int
BsdudpSocket::MulticastLeaveGroup(uint32_t interface, const Address& groupAddress)
{
    return Refuse(ERROR_OPNOTSUPP);
}

void
BsdudpSocket::SetRcvBufSize(uint32_t size)
{
    m_rcvBufSize = size;
    if (m_fd < 0) // the attribute has its first value before there is a descriptor
    {
        return;
    }
    const bool isSet = bsdudp_getsockopt(&m_stack->m_stack, m_fd, BSDUDP_SO_RCVBUF) > 0;
    if (size <= LARGEST_QUEUE || isSet)
    {
        const int bytes = std::clamp<uint32_t>(size, 1, LARGEST_QUEUE);
        Note(bsdudp_setsockopt(&m_stack->m_stack, m_fd, BSDUDP_SO_RCVBUF, bytes));
    }
}

uint32_t
BsdudpSocket::GetRcvBufSize() const
{
    const int size =
        m_fd < 0 ? 0 : bsdudp_getsockopt(&m_stack->m_stack, m_fd, BSDUDP_SO_RCVBUF);
    return size > 0 ? size : QUEUE_BYTES;
}

void
BsdudpSocket::SetIpMulticastTtl(uint8_t ipTtl)
{
}

uint8_t
BsdudpSocket::GetIpMulticastTtl() const
{
    return 0;
}

void
BsdudpSocket::SetIpMulticastIf(int32_t ipIf)
{
}

int32_t
BsdudpSocket::GetIpMulticastIf() const
{
    return -1;
}

void
BsdudpSocket::SetIpMulticastLoop(bool loop)
{
}

bool
BsdudpSocket::GetIpMulticastLoop() const
{
    return false;
}

void
BsdudpSocket::SetMtuDiscover(bool discover)
{
}

bool
BsdudpSocket::GetMtuDiscover() const
{
    return false;
}

} // namespace ns3
