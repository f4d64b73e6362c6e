/* For a compiler that comes with no headers: what the host programs use of this one. */
#ifndef ERRNO_H
#define ERRNO_H
int *__errno_location(void);
#define errno (*__errno_location())
#define ENOENT 2
#define EINTR 4
#define EBADF 9
#define EWOULDBLOCK 11
#define EEXIST 17
#define EISDIR 21
#define EINVAL 22
#endif
