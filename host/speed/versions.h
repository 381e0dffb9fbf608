/*
 * The versions that are measured, each with functions of omh.h under its own
 * prefix: the proved library, C in its forms, the second program, and
 * functions that return at once.
 */
#ifndef VERSIONS_H
#define VERSIONS_H

#include "../omh.h"
#include "../peer/peer.h"

PEER_CALLS(PEER_DECLARED, second)
PEER_CALLS(PEER_DECLARED, none)

#define MEMBER(prefix, name) typeof(omh_##name) *name;
struct version {
    const char *prefix;
    PEER_CALLS(MEMBER, )
};

#define ENTRY(of, name) .name = of##_##name,
#define VERSION(of) {.prefix = #of, PEER_CALLS(ENTRY, of)}

#endif
