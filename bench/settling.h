/*
 * Loops that settle slowly: while y<100 do (x0:=x1; (x1:=x2; ..; (x28:=x29; a long body))), where x29 is secret.  Each pass
 * but the last labels one variable more secret, so labelling goes over the whole body 30 times.
 */
#ifndef SETTLING_H
#define SETTLING_H

#include "samples.h"

sample_table settling_table;       /* with a body of skips, assignments, reads, writes and ifs */
sample_table settling_skips_table; /* with a body of skips: all samples are the same */

#endif
