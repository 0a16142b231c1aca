/* What the tests take of POSIX's memory, on a Cortex-M: memory.c. */
#ifndef BARE_MMAN_H
#define BARE_MMAN_H

#include <stddef.h>

enum { PROT_NONE = 0, PROT_READ = 1, PROT_WRITE = 2 };
enum { MAP_PRIVATE = 0, MAP_ANONYMOUS = 0 };
#define MAP_FAILED ((void *)-1)

void *mmap(void *address, size_t size, int protection, int flags, int file, long offset);
int mprotect(void *address, size_t size, int protection);
int munmap(void *address, size_t size);

#endif
