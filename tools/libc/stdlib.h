#ifndef STDLIB_H
#define STDLIB_H
#include <stddef.h>
void exit(int status) __attribute__((noreturn));
void qsort(void *row, size_t count, size_t bytes, int (*order)(const void *, const void *));
#endif
