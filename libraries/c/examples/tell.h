/* What is told of calls that fail, for the examples. */
#ifndef TELL_H
#define TELL_H

#include <bootkeep.h>

/* Says on standard error, after what it was that failed, why a call has no answer. It is 1, the status of a program
 * that failed. */
int tell(const char *what, uint32_t status, const struct bootkeep_refusal *why);

#endif
