/* Two cores fill a region with squares. Then each counts, in an array on its stack, how often each remainder modulo 8 stands in its
   half, and adds its counts to the common ones under a lock. */
#include "denovo.h"

extern unsigned numbers[];
extern unsigned counts[];

void fill(unsigned first)
{
    for (unsigned i = 0; i < 16; i++)
        numbers[first + i] = (first + i) * (first + i);
}

void count(unsigned first)
{
    unsigned own[8];
    for (unsigned value = 0; value < 8; value++)
        own[value] = 0;
    for (unsigned i = 0; i < 16; i++)
        own[numbers[first + i] & 7]++;
    acquire(LOCK(sums));
    for (unsigned value = 0; value < 8; value++)
        counts[value] += own[value];
    release(LOCK(sums));
}
