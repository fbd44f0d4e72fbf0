/*
 * Copyright (c) 2026 The bsdudp authors
 *
 * SPDX-License-Identifier: BSD-2-Clause
 */
#ifndef BSDUDP_HELPER_H
#define BSDUDP_HELPER_H

#include "ns3/bsdudp-stack.h"
#include "ns3/ipv4-address-helper.h"
#include "ns3/net-device-container.h"
#include "ns3/node-container.h"
#include "ns3/object-factory.h"

#include <string>
#include <vector>

namespace ns3
{

/**
 * \ingroup bsdudp
 *
 * \brief The stacks that BsdudpHelper installed, with the accessors of an Ipv4InterfaceContainer.
 */
class BsdudpStackContainer
{
  public:
    /// Iterates over the stacks.
    typedef std::vector<Ptr<BsdudpStack>>::const_iterator Iterator;

    /**
     * \brief Adds a stack at the end.
     * \param stack the stack
     */
    void Add(Ptr<BsdudpStack> stack);

    /**
     * \return how many stacks there are
     */
    uint32_t GetN() const;

    /**
     * \param i which stack, 0 to GetN() - 1
     * \return the stack
     */
    Ptr<BsdudpStack> Get(uint32_t i) const;

    /**
     * \param i which stack, 0 to GetN() - 1
     * \return its address
     */
    Ipv4Address GetAddress(uint32_t i) const;

    /**
     * \return the first stack
     */
    Iterator Begin() const;

    /**
     * \return past the last stack
     */
    Iterator End() const;

  private:
    std::vector<Ptr<BsdudpStack>> m_stacks; ///< the stacks
};

/**
 * \ingroup bsdudp
 *
 * \brief Gives nodes a BsdudpStack, instead of InternetStackHelper and Ipv4AddressHelper::Assign().
 *
 * \code
 *   Ipv4AddressHelper addresses("10.1.1.0", "255.255.255.0");
 *   BsdudpStackContainer stacks = BsdudpHelper().Install(nodes, devices, addresses);
 * \endcode
 *
 * After that all applications that use UdpSocketFactory run on these nodes. To have both kinds of
 * nodes in one network, use one Ipv4AddressHelper for both.
 *
 * Each way to install sets the global value ChecksumEnabled: the stack drops packets without header
 * checksums, as 4.4BSD does, and ns-3's own stack only computes them if this value is set.
 */
class BsdudpHelper
{
  public:
    BsdudpHelper();

    /**
     * \brief Sets an attribute of the stacks that are installed from now on.
     * \param name Mbufs, Clusters, FirstId, Gateway or Tick
     * \param value its value
     */
    void SetAttribute(const std::string& name, const AttributeValue& value);

    /**
     * \brief Installs a stack on each device and gives it the next address.
     *
     * It ends the program with a message if the numbers of nodes and devices differ, if device i
     * isn't one of node i, if a node already has a UdpSocketFactory (from another stack, or from
     * this one for another device), or if BsdudpStack::Start() fails.
     *
     * \param nodes the nodes
     * \param devices a device of each of them, in the same order
     * \param addresses gives the addresses, also to others
     * \return the stacks, in the same order
     */
    BsdudpStackContainer Install(const NodeContainer& nodes,
                                 const NetDeviceContainer& devices,
                                 Ipv4AddressHelper& addresses) const;

    /**
     * \brief The same for the nodes whose devices these are.
     * \param devices the devices, each of another node
     * \param addresses gives the addresses, also to others
     * \return the stacks, in the same order
     */
    BsdudpStackContainer Install(const NetDeviceContainer& devices,
                                 Ipv4AddressHelper& addresses) const;

    /**
     * \brief The same for one device and an address of one's own choice.
     * \param device the device
     * \param address its address
     * \param mask the mask of its network
     * \return the stack
     */
    Ptr<BsdudpStack> Install(Ptr<NetDevice> device, Ipv4Address address, Ipv4Mask mask) const;

  private:
    ObjectFactory m_factory; ///< makes the stacks
};

} // namespace ns3

#endif /* BSDUDP_HELPER_H */
