/* For a compiler that comes with no headers: what the host programs use of this one. */
#ifndef UNISTD_H
#define UNISTD_H
#include <stddef.h>
typedef long ssize_t;
#define STDIN_FILENO 0
#define STDOUT_FILENO 1
#define STDERR_FILENO 2
ssize_t read(int file, void *to, size_t room);
ssize_t write(int file, const void *from, size_t length);
int close(int file);
int fchown(int file, unsigned user, unsigned group);
int fsync(int file);
int isatty(int file);
int unlinkat(int folder, const char *path, int how);
#endif
