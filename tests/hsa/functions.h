/* The tests of single functions, by subject. */
#ifndef FUNCTIONS_H
#define FUNCTIONS_H

#include "tests.h"

extern machine the;
/* Each ends with a row without a name. */
extern const test system_tests[], signal_tests[], queue_tests[], memory_tests[], code_tests[];

#endif
