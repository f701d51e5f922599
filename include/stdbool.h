/* Boolean type (C11 7.18). intermit has no _Bool: bool is int here, so it is true where it isn't 0, but a conversion to it
 * gives no 1. tools/adapt, which sets INTERMIT_ADAPT, writes these conversions out. */
#ifndef INTERMIT_STDBOOL_H
#define INTERMIT_STDBOOL_H

#ifdef INTERMIT_ADAPT
#define bool _Bool
#else
#define bool int
#endif
#define true 1
#define false 0
#define __bool_true_false_are_defined 1

#endif
