/* The versions of tables and sheets: FLOW_VERSION and FLOW_VERSION_2. */
#ifndef VERSIONS_H
#define VERSIONS_H

#include <stdbool.h>

#include "flow.h"

static inline bool is_known_version(unsigned version)
{
    return version == FLOW_VERSION || version == FLOW_VERSION_2;
}

#endif
