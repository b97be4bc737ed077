#include "vobrekan.h"
#include <stdio.h>
#include <stdlib.h>
#include <string.h>

/* Ends the program where something does not hold. */
static inline void check(bool holds, const char *what) {
    if (!holds) {
        fprintf(stderr, "not so: %s\n", what);
        exit(1);
    }
}

/* The answer of a call, where it is not refused; else the program says why, and ends. */
static inline vb_answer done(vb_answer a) {
    uint8_t why[256];
    size_t len;
    if (a.code != VB_DONE && vb_print(&a, why, sizeof why, &len) == VB_DONE) fprintf(stderr, "%.*s\n", (int)len, (char *)why);
    check(a.code == VB_DONE, "the call is done");
    return a;
}
