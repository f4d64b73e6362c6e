/* For a compiler that comes with no headers: what the host programs use of this one. */
#ifndef SYS_FILE_H
#define SYS_FILE_H
#define LOCK_EX 2
#define LOCK_NB 4
#define LOCK_UN 8
int flock(int file, int how);
#endif
