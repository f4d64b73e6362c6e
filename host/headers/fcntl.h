/* For a compiler that comes with no headers: what the host programs use of this one, with the numbers of Linux on x86-64. */
#ifndef FCNTL_H
#define FCNTL_H
#define O_RDONLY 0
#define O_WRONLY 1
#define O_CREAT 0100
#define O_EXCL 0200
#define O_NONBLOCK 04000
#define O_DIRECTORY 0200000
#define O_NOFOLLOW 0400000
#define O_CLOEXEC 02000000
#define O_PATH 010000000
#define AT_SYMLINK_NOFOLLOW 0x100
int open(const char *path, int how, ...);
int openat(int folder, const char *path, int how, ...);
#endif
