/* Ends a test program with a message where a condition does not hold. */
#pragma once
#include <errno.h>
#include <stdio.h>
#include <stdlib.h>
#include <string.h>

#define MUST(condition) \
    do { \
        if (!(condition)) { \
            fprintf(stderr, "%s: line %d: %s: not so: %s\n", __FILE__, __LINE__, \
                    strerror(errno), #condition); \
            exit(1); \
        } \
    } while (0)
