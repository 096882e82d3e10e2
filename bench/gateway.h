/* Small programs of the kind that gateways run: what users' own tables look like. */
#ifndef GATEWAY_H
#define GATEWAY_H

#include "samples.h"

/* One of the SAMPLES programs.  Each has a number of nodes of its own, from 10 to 50, so the number given is not looked at. */
sample_table gateway_table;

/* How many nodes they have in the mean. */
unsigned gateway_mean_nodes(void);

#endif
