/* What the C programs of this folder share. */
#ifndef COMMON_H
#define COMMON_H

#include <stdio.h>
#include <stdlib.h>
#include <time.h>

/* Ends the program, and says why. */
static inline _Noreturn void give_up(const char *why)
{
    perror(why);
    exit(1);
}

/* Ends the program where a call failed. */
static inline int must(int result, const char *what)
{
    if (result < 0)
        give_up(what);
    return result;
}

static inline double now(void)
{
    struct timespec time;
    clock_gettime(CLOCK_MONOTONIC, &time);
    return (double)time.tv_sec + (double)time.tv_nsec / 1e9;
}

/* Where a xorshift generator begins: by a seed, and by the number of who draws from it. */
static inline unsigned long first_state(unsigned long seed, unsigned long number)
{
    return (seed + number * 1000003) * 0x9E3779B97F4A7C15UL + 1;
}

/* Its next number, below a limit. */
static inline unsigned long draw_below(unsigned long *state, unsigned long limit)
{
    *state ^= *state << 13;
    *state ^= *state >> 7;
    *state ^= *state << 17;
    return (*state >> 16) % limit;
}

/* Orders floats, for qsort. */
static inline int compare_floats(const void *left, const void *right)
{
    float first = *(const float *)left, second = *(const float *)right;
    return (first > second) - (first < second);
}

#endif
