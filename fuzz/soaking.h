/* What the soaks share: random numbers, and the memory of a process. */
#ifndef SOAKING_H
#define SOAKING_H

#include <stdint.h>
#include <stdio.h>
#include <unistd.h>

/* How many KiB a process may grow after a tenth of a soak. */
enum { MAY_GROW = 64 };

/* Random numbers, the same in each run (xorshift64*). */
static uint64_t chance(uint64_t below)
{
    static uint64_t state = 88172645463325252;
    state ^= state >> 12;
    state ^= state << 25;
    state ^= state >> 27;
    return (state * 2685821657736338717u >> 33) % below;
}

/* The memory of the process that is there, in KiB (the second number of its statm, in pages), or 0 if it is gone. */
static size_t resident(const char *pid)
{
    char path[64];
    unsigned long pages = 0;
    snprintf(path, sizeof path, "/proc/%s/statm", pid);
    FILE *file = fopen(path, "r");
    if (file == NULL)
        return 0;
    if (fscanf(file, "%*u %lu", &pages) != 1)
        pages = 0;
    fclose(file);
    return pages * (size_t)sysconf(_SC_PAGESIZE) / 1024;
}

#endif
