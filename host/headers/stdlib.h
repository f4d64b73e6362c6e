/* For a compiler that comes with no headers: what the host programs use of this one. */
#ifndef STDLIB_H
#define STDLIB_H
#include <stddef.h>
int atoi(const char *text);
double strtod(const char *text, char **end);
void exit(int status) __attribute__((noreturn));
void *malloc(size_t n);
void *realloc(void *old, size_t n);
void free(void *old);
#endif
