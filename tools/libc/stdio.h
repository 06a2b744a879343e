#ifndef STDIO_H
#define STDIO_H
#include <stddef.h>
#define EOF (-1)
int printf(const char *format, ...) __attribute__((format(printf, 1, 2)));
int vprintf(const char *format, __builtin_va_list words);
int getchar(void);
#endif
