/* Rows of a test, each with what has to hold; and a fault by which one sees whether a call touched it. */
#ifndef ROWS_H
#define ROWS_H

#include "rt1553.h"

#include <stdio.h>
#include <string.h>

static int passed, failed;

static void row(const char *name, int holds) {
    passed += holds != 0;
    failed += holds == 0;
    if (!holds)
        printf("FAILED: %s\n", name);
}

static rt1553_fault untouched(void) {
    rt1553_fault fault;
    memset(&fault, 0xa5, sizeof fault);
    return fault;
}

static int is_untouched(const rt1553_fault *fault) {
    rt1553_fault same = untouched();
    return memcmp(fault, &same, sizeof same) == 0;
}

#endif
