/* Ends a test at the first thing that is not as it must be; the numbers that an event can be answered by. */
#ifndef EXPECT_H
#define EXPECT_H

#include <stdio.h>
#include <stdlib.h>

#define OF_EVENT(number) ((number) <= 18 || (number) == 30 || (number) == 31 || (number) == 34 || (number) == 35)

#define EXPECT(holds)                                                                \
    do {                                                                             \
        if (!(holds)) {                                                              \
            fprintf(stderr, "%s:%d: not so: %s\n", __FILE__, __LINE__, #holds);      \
            exit(1);                                                                 \
        }                                                                            \
    } while (0)

#endif
