/*
 * Copyright (c) 2026 The bsdudp authors
 *
 * SPDX-License-Identifier: BSD-2-Clause
 */
#ifndef BSDUDP_LOG_H
#define BSDUDP_LOG_H

#include "ns3/log.h"

namespace ns3
{

/**
 * \ingroup bsdudp
 * \return the log component "bsdudp", which all files of the library share
 */
LogComponent& GetBsdudpLog();

/// The name that ns-3's macros for logging use.
[[maybe_unused]] static LogComponent& g_log = GetBsdudpLog();

} // namespace ns3

#endif /* BSDUDP_LOG_H */
