/* SPDX-License-Identifier: Apache-2.0 */
/* The requests of pmemcheck that pmfarm_markers.h makes, over the header of Valgrind itself: for a machine without pmemcheck.
 *
 *     cc -I trace/include ..
 *
 * A program that is compiled so runs by itself, where the requests do nothing, under tools/trace, and under pmemcheck. (This file
 * becomes part of that program, so it has the licence of the repository, and not that of the tracer.) */
#ifndef PMFARM_REQUESTS_H
#define PMFARM_REQUESTS_H

#include <valgrind/valgrind.h>

#define PMFARM_REQUEST_REGISTER 0x50430000
#define PMFARM_REQUEST_EMIT_LOG 0x5043001e

#define VALGRIND_PMC_REGISTER_PMEM_MAPPING(address, size) \
    VALGRIND_DO_CLIENT_REQUEST_EXPR(0, PMFARM_REQUEST_REGISTER, (address), (size), 0, 0, 0)
#define VALGRIND_PMC_EMIT_LOG(text) VALGRIND_DO_CLIENT_REQUEST_STMT(PMFARM_REQUEST_EMIT_LOG, (text), 0, 0, 0, 0)

#endif
