/* What the back end in this process wants from the library for C and the library hasn't as one call. Each has its one place here. */
#ifndef LIBRARY_H
#define LIBRARY_H

#include "seam.h"

/* Lets the audit's entries go. */
hd_status library_let_go(hd_broker *broker);
/* The name of a status. */
const char *library_status_text(hd_status status);
/* What a rule asks, in a few words. */
const char *library_rule_text(uint32_t rule);
/* The name of a rule: L1 .. L10, A1 .. A7, B1. */
const char *library_rule_name(uint32_t rule);

#endif
