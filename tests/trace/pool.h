/* A pool at an address that each run has, so that its logs can be compared. */
#ifndef POOL_H
#define POOL_H
#define _GNU_SOURCE
#include <fcntl.h>
#include <stdint.h>
#include <stdio.h>
#include <stdlib.h>
#include <string.h>
#include <sys/mman.h>
#include <unistd.h>

#define POOL 0x10000000UL
#define POOL_SIZE 0x4000UL

static void fail(const char *what)
{
    perror(what);
    exit(9);
}

static int open_file(const char *path)
{
    int file = open(path, O_RDWR | O_CREAT, 0666);

    if (file < 0 || ftruncate(file, POOL_SIZE) != 0)
        fail(path);
    return file;
}

static char *map_at(unsigned long address, int file, int flags)
{
    void *mapped = mmap((void *)address, POOL_SIZE, PROT_READ | PROT_WRITE, flags | MAP_FIXED_NOREPLACE, file, 0);

    if (mapped != (void *)address)
        fail("mmap");
    return mapped;
}

static inline void write_back_line(const void *at)
{
    __asm__ volatile(".byte 0x66; xsaveopt %0" : : "m"(*(const char *)at) : "memory"); /* CLWB */
}

static inline void fence(void)
{
    __asm__ volatile("sfence" : : : "memory");
}

static inline void store(volatile char *at, uint64_t value)
{
    *(volatile uint64_t *)at = value;
}
#endif
