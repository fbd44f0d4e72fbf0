/*
 * Copyright (c) 2026 The bsdudp authors
 *
 * SPDX-License-Identifier: BSD-2-Clause
 */
#include "bsdudp-helper.h"

#include "ns3/abort.h"
#include "ns3/boolean.h"
#include "ns3/bsdudp-socket-factory.h"
#include "ns3/global-value.h"
#include "ns3/node.h"

namespace ns3
{

namespace
{

/// The mask of an Ipv4AddressHelper, which has no call for it: the distance between two consecutive
/// networks is the number of addresses in each.
Ipv4Mask
GetMask(Ipv4AddressHelper addresses)
{
    const uint32_t first = addresses.NewNetwork().Get();
    return Ipv4Mask(~(addresses.NewNetwork().Get() - first - 1));
}

} // namespace

void
BsdudpStackContainer::Add(Ptr<BsdudpStack> stack)
{
    m_stacks.push_back(stack);
}

uint32_t
BsdudpStackContainer::GetN() const
{
    return m_stacks.size();
}

Ptr<BsdudpStack>
BsdudpStackContainer::Get(uint32_t i) const
{
    return m_stacks.at(i);
}

Ipv4Address
BsdudpStackContainer::GetAddress(uint32_t i) const
{
    return Get(i)->GetAddress();
}

BsdudpStackContainer::Iterator
BsdudpStackContainer::Begin() const
{
    return m_stacks.begin();
}

BsdudpStackContainer::Iterator
BsdudpStackContainer::End() const
{
    return m_stacks.end();
}

BsdudpHelper::BsdudpHelper()
{
    m_factory.SetTypeId(BsdudpStack::GetTypeId());
}

void
BsdudpHelper::SetAttribute(const std::string& name, const AttributeValue& value)
{
    m_factory.Set(name, value);
}

Ptr<BsdudpStack>
BsdudpHelper::Install(Ptr<NetDevice> device, Ipv4Address address, Ipv4Mask mask) const
{
    const std::string refusal = BsdudpStack::GetRefusal(device);
    NS_ABORT_MSG_UNLESS(refusal.empty(), "bsdudp: no stack for this device: " << refusal);
    Ptr<Node> node = device->GetNode();
    NS_ABORT_MSG_IF(node->GetObject<BsdudpStack>(),
                    "bsdudp: node " << node->GetId()
                                    << " has a bsdudp stack already. A stack has one device, so of "
                                       "several devices of a node one can have it");
    NS_ABORT_MSG_IF(node->GetObject<UdpSocketFactory>(),
                    "bsdudp: node " << node->GetId()
                                    << " has another stack already: leave its InternetStackHelper "
                                       "out, or leave it to ns-3");
    GlobalValue::Bind("ChecksumEnabled", BooleanValue(true));
    auto stack = m_factory.Create<BsdudpStack>();
    node->AggregateObject(stack);
    node->AggregateObject(CreateObject<BsdudpSocketFactory>());
    node->AggregateObject(CreateObject<BsdudpNoTcp>());
    node->AggregateObject(CreateObject<BsdudpNoRaw>());
    stack->Start(device, address, mask);
    return stack;
}

BsdudpStackContainer
BsdudpHelper::Install(const NetDeviceContainer& devices, Ipv4AddressHelper& addresses) const
{
    const Ipv4Mask mask = GetMask(addresses);
    BsdudpStackContainer stacks;
    for (auto device = devices.Begin(); device != devices.End(); ++device)
    {
        stacks.Add(Install(*device, addresses.NewAddress(), mask));
    }
    return stacks;
}

BsdudpStackContainer
BsdudpHelper::Install(const NodeContainer& nodes,
                      const NetDeviceContainer& devices,
                      Ipv4AddressHelper& addresses) const
{
    NS_ABORT_MSG_IF(nodes.GetN() != devices.GetN(),
                    "bsdudp: there are " << nodes.GetN() << " nodes and " << devices.GetN()
                                         << " devices: give each node one");
    for (uint32_t i = 0; i < nodes.GetN(); i++)
    {
        NS_ABORT_MSG_IF(devices.Get(i)->GetNode() != nodes.Get(i),
                        "bsdudp: device " << i << " isn't one of node " << i
                                          << " in the container");
    }
    return Install(devices, addresses);
}

} // namespace ns3
