/*
 * Copyright (c) 2026 The bsdudp authors
 *
 * SPDX-License-Identifier: BSD-2-Clause
 */
#ifndef BSDUDP_STACK_H
#define BSDUDP_STACK_H

#include "bsdudp-fragments.h"
#include "bsdudp-link.h"

#include "ns3/event-id.h"
#include "ns3/ipv4-address.h"
#include "ns3/net-device.h"
#include "ns3/node.h"
#include "ns3/nstime.h"
#include "ns3/object.h"
#include "ns3/packet.h"
#include "ns3/traced-callback.h"
#include "ns3/traced-value.h"

#include <array>
#include <bsdudp.h>
#include <map>
#include <string>
#include <vector>

namespace ns3
{

/**
 * \defgroup bsdudp The bsdudp stack
 *
 * IPv4 and UDP of a node by libbsdudp, the datagram half of a 4.4BSD network stack, each call of
 * which is proved to be one step of a reference machine. BsdudpHelper installs it.
 */

class BsdudpSocket;
class Socket;

/**
 * \ingroup bsdudp
 *
 * \brief A stack of libbsdudp on one device of a node.
 *
 * It receives the IPv4 packets of the device and passes the device those that leave. If the device
 * needs ARP, as CsmaNetDevice does, the node is a host on an Ethernet: the library resolves
 * hardware addresses, replies to pings, and reports datagrams for closed ports to their senders.
 * Sockets come from CreateSocket(), which the node's UdpSocketFactory calls. Ticks are events only
 * while fragments of a datagram wait for others, or packets for a hardware address, so that a
 * simulation ends by itself.
 *
 * Packets and calls have the effects of libbsdudp. The bytes on the link and those that a socket
 * reads are always the library's. An ns-3 packet carries them, with its tags, only if it has
 * exactly these bytes.
 */
class BsdudpStack : public Object
{
  public:
    /// How many counters there are.
    static constexpr uint32_t COUNTERS = BSDUDP_COUNTERS;

    /**
     * \brief Get the type ID.
     * \return the object TypeId
     */
    static TypeId GetTypeId();

    BsdudpStack() = default;
    ~BsdudpStack() override;

    BsdudpStack(const BsdudpStack&) = delete;
    BsdudpStack& operator=(const BsdudpStack&) = delete;

    /**
     * \brief Why a device can't have a stack.
     *
     * It can't if it has no node, if it needs ARP and has no 48-bit hardware address, or if the
     * library doesn't accept its MTU.
     *
     * \param device the device
     * \return the reason in words, empty if it can
     */
    static std::string GetRefusal(Ptr<NetDevice> device);

    /**
     * \brief Boots the stack on a device. The packets of the link are as long as the device's MTU
     * is at this moment.
     *
     * It ends the program with a message if GetRefusal() gives a reason, if the stack was started
     * before, or if the library rejects the address: it must be in 1.0.0.0 to 223.255.255.255, not
     * in 127/8, and not the broadcast address of its network.
     *
     * \param device the device
     * \param address its address
     * \param mask the mask of its network, which gives its broadcast address
     */
    void Start(Ptr<NetDevice> device, Ipv4Address address, Ipv4Mask mask);

    /**
     * \brief Opens a socket. If 64 are open already, each call of the new one returns -1 with
     * ERROR_BADF.
     * \return the socket
     */
    Ptr<Socket> CreateSocket();

    /**
     * \return the device, null before Start()
     */
    Ptr<NetDevice> GetDevice() const;

    /**
     * \return the address of the device
     */
    Ipv4Address GetAddress() const;

    /**
     * \return the broadcast address of the network
     */
    Ipv4Address GetBroadcast() const;

    /**
     * \brief All counters. docs/behaviour.md says what each one counts.
     * \return the values by name, such as "ip.total"
     */
    std::map<std::string, uint64_t> GetCounters() const;

    /**
     * \brief One counter. It ends the program with a message if no counter has this name.
     * \param name the name, such as "udp.fullsock"
     * \return the value
     */
    uint64_t GetCounter(const std::string& name) const;

    /**
     * \return how many sends failed because the datagram was too long: more than 9,216 bytes, or a
     * broadcast that is longer than the MTU. Nothing is sent then, and no counter of the library
     * goes up
     */
    uint64_t GetTooLong() const;

    /**
     * \return how many mbufs and clusters there are, and how many of them are free
     */
    struct bsdudp_mbstat GetUsage() const;

    /**
     * \return how many datagrams wait for fragments
     */
    uint32_t GetUnfinished() const;

    /**
     * \return whether the node is a host on an Ethernet: its device needs ARP
     */
    bool IsOnEthernet() const;

    /**
     * \return the counters of the link; all 0 if IsOnEthernet() is false
     */
    struct bsdudp_tallies GetTallies() const;

    /**
     * \brief TracedCallback signature of Tx and Rx.
     * \param [in] packet the packet, from its IPv4 header on
     */
    typedef void (*PacketTracedCallback)(Ptr<const Packet> packet);

    /**
     * \brief TracedCallback signature of Drop.
     * \param [in] packet what was dropped
     * \param [in] cause the counter that went up and what it counts, such as "udp.noport: no socket
     * has the port"
     */
    typedef void (*DropTracedCallback)(Ptr<const Packet> packet, const std::string& cause);

    /**
     * \brief TracedCallback signature of Delivered.
     * \param [in] packet the packet that completed the datagram; if the stack sent it to itself,
     * the datagram's data
     * \param [in] socket the socket that can read the datagram now
     */
    typedef void (*DeliveredTracedCallback)(Ptr<const Packet> packet, Ptr<const Socket> socket);

  protected:
    void DoDispose() override;
    void NotifyNewAggregate() override;

  private:
    friend class BsdudpSocket;

    /// The counters at one moment, in the library's order.
    typedef std::array<uint64_t, COUNTERS> Counts;

    /// Two counters, for what the fate of a packet doesn't say. Both are 0 if nobody traces drops.
    struct Unsaid
    {
        uint64_t lacking;   ///< drops for lack of buffers: the other cause of a loss is a full queue
        uint64_t protocols; ///< on an Ethernet, packets of an unknown protocol without a reply
    };

    /// A packet for the device.
    struct Leaving
    {
        Ptr<Packet> packet; ///< the packet
        Address to;         ///< the hardware address of its destination
        uint16_t protocol;  ///< IPv4 or ARP
    };

    /**
     * \brief Sends a datagram and passes its packets to the device.
     * \param fd the descriptor of the socket
     * \param to where to, null for the peer
     * \param packet the data
     * \return the library's result
     */
    int Send(int fd, const bsdudp_addr* to, Ptr<Packet> packet);

    /**
     * \brief Counts and reports a send that failed because the datagram was too long. The first one
     * of a stack is a warning on std::clog.
     * \param packet the data
     */
    void NoteTooLong(Ptr<const Packet> packet);

    /**
     * \brief A packet arrived: the node's handler of IPv4.
     * \param device the device
     * \param packet the packet, from its IPv4 header on
     * \param protocol IPv4
     * \param from the sender's link address
     * \param to the link address of its destination
     * \param type the kind of its destination
     */
    void Receive(Ptr<NetDevice> device,
                 Ptr<const Packet> packet,
                 uint16_t protocol,
                 const Address& from,
                 const Address& to,
                 NetDevice::PacketType type);

    /**
     * \brief Boots the library's stack.
     * \param mask the mask of the network
     */
    void Boot(Ipv4Mask mask);

    /**
     * \brief Passes bytes to the library.
     * \param bytes a packet, or on an Ethernet a frame
     * \param length how many there are
     * \return what happened to the packet
     */
    struct bsdudp_fate Input(const std::vector<uint8_t>& bytes, uint32_t length);

    /**
     * \brief An IPv4 packet arrived.
     * \param packet the packet
     * \param bytes its bytes; on an Ethernet the frame's
     * \param head how many of them are before the packet
     * \return the sockets that received a datagram
     */
    std::vector<Ptr<BsdudpSocket>>
    ReceivePacket(Ptr<const Packet> packet, std::vector<uint8_t>& bytes, uint32_t head);

    /// The time of the attribute Tick passed, half a second by default.
    void Tick();

    /// Makes the ticks of a host on an Ethernet that are due, and sends what they cause.
    void CatchUp();

    /// Schedules the next tick if it's needed and none is scheduled.
    void ScheduleTick();

    /// \return whether something waits that a tick changes
    bool NeedsTick() const;

    /**
     * \brief Whether an ns-3 packet has these bytes.
     * \param packet the packet
     * \param bytes the bytes
     * \param length how many there are
     * \return whether the packet has them and no others
     */
    static bool HasBytes(Ptr<const Packet> packet, const uint8_t* bytes, uint32_t length);

    /**
     * \brief Makes the ns-3 packet for a packet that leaves.
     * \param datagram the data with their UDP header; it's used up if the packet is all of it
     * \param bytes the packet's bytes
     * \param length how many there are
     * \return a piece of the datagram with an ns-3 header if that has these bytes, otherwise a
     * packet with only the bytes
     */
    static Ptr<Packet> Cut(Ptr<Packet> datagram, const uint8_t* bytes, uint32_t length);

    /**
     * \brief Takes all packets that wait for the link.
     * \param packet the data that was sent, of which they're cut if the bytes are the same
     * \return the packets. On links without ARP each goes to the broadcast address of the link, as
     * in ns-3's own Ipv4Interface
     */
    std::vector<Leaving> TakePackets(Ptr<const Packet> packet);

    /**
     * \brief Takes all frames of a host on an Ethernet.
     * \return the packets in them
     */
    std::vector<Leaving> TakeFrames();

    /**
     * \brief Passes packets to the device.
     * \param leaving the packets
     */
    void Transmit(const std::vector<Leaving>& leaving);

    /**
     * \brief Records which sockets received a datagram in the last call.
     * \param sockets the sockets that may have, as a set of the library
     * \param packet the packet for Delivered
     * \param datagram the ns-3 packet that contains the datagram's data, or null
     * \param start the offset at which they begin in it
     * \return the sockets that did
     */
    std::vector<Ptr<BsdudpSocket>> NoteArrivals(uint64_t sockets,
                                                Ptr<const Packet> packet,
                                                Ptr<const Packet> datagram,
                                                uint32_t start);

    /// \return whether somebody traces drops
    bool IsTraced() const;

    /// \return the counters for what a fate doesn't say
    Unsaid ReadUnsaid() const;

    /// \return all counters
    Counts ReadCounts() const;

    /**
     * \brief Reports that a packet was dropped, or that sockets lost its datagram.
     * \param packet the packet
     * \param fate what happened to it
     * \param before the counters before it arrived
     */
    void ReportFate(Ptr<const Packet> packet, const struct bsdudp_fate& fate, const Unsaid& before);

    /**
     * \brief Reports what a send dropped, also of packets to this host.
     * \param packet the data
     * \param before the counters before it, if somebody traces drops
     */
    void ReportSendDrops(Ptr<const Packet> packet, const Counts& before);

    /**
     * \brief After a call: reports fragments of datagrams that were dropped unfinished, and how many
     * datagrams wait, and schedules the tick.
     * \param packet the packet of the call, null of a tick
     */
    void Settle(Ptr<const Packet> packet);

    /**
     * \brief Reports a drop.
     * \param packet what
     * \param counter the number of the counter that went up
     */
    void Drop(Ptr<const Packet> packet, uint32_t counter);

    /**
     * \brief Reports what the link of a host on an Ethernet dropped in a call. A packet that had
     * waited is reported as an empty one, because the library doesn't say which one it was.
     * \param packet the packet of the call, null of a tick
     * \param before the link's counters before the call
     */
    void ReportLinkDrops(Ptr<const Packet> packet, const BsdudpLinkDrops& before);

    /// The library's stack. Queries don't change it, but need a pointer to it.
    mutable bsdudp m_stack = BSDUDP_NONE;
    Ptr<Node> m_node;                            ///< the node
    Ptr<NetDevice> m_device;                     ///< its device
    Ipv4Address m_address;                       ///< the device's address
    Ipv4Address m_broadcast;                     ///< the broadcast address of its network
    Ipv4Address m_gateway;                       ///< the gateway, on an Ethernet
    bool m_onEthernet{false};                    ///< whether the device needs ARP
    uint32_t m_mbufs;                            ///< how many mbufs the pool has
    uint32_t m_clusters;                         ///< how many clusters
    uint16_t m_firstId;                          ///< the identification of the first datagram
    Time m_tick;                                 ///< the time between two ticks
    Time m_start;                                ///< when the stack was booted
    EventId m_tickEvent;                         ///< the next tick, if one is needed
    int64_t m_ticks{0};                          ///< the ticks so far, of a host on an Ethernet
    std::map<int, BsdudpSocket*> m_sockets;      ///< the open sockets by their descriptors
    uint64_t m_tooLong{0};                       ///< sends that were too long
    BsdudpFragments m_fragments;                 ///< the packets of unfinished datagrams
    BsdudpSent m_sent;                           ///< data of datagrams that may wait to be sent
    TracedValue<uint32_t> m_unfinished{0};       ///< how many datagrams wait for fragments
    TracedCallback<Ptr<const Packet>> m_txTrace; ///< packets that leave
    TracedCallback<Ptr<const Packet>> m_rxTrace; ///< packets that come
    TracedCallback<Ptr<const Packet>, const std::string&> m_dropTrace;     ///< what is dropped
    TracedCallback<Ptr<const Packet>, Ptr<const Socket>> m_deliveredTrace; ///< who got a datagram
};

} // namespace ns3

#endif /* BSDUDP_STACK_H */
