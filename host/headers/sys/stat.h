/* For a compiler that comes with no headers: what the host programs use of this one, as the C library lays it out on x86-64. */
#ifndef SYS_STAT_H
#define SYS_STAT_H
#include <stdint.h>
typedef uint32_t mode_t;
struct stat {
    uint64_t st_dev, st_ino, st_nlink;
    mode_t st_mode;
    uint32_t st_uid, st_gid;
    uint32_t unused_after[27];
};
_Static_assert(sizeof(struct stat) == 144, "the C library writes 144 bytes");
#define S_ISREG(mode) (((mode) & 0170000) == 0100000)
#define S_ISDIR(mode) (((mode) & 0170000) == 0040000)
int stat(const char *path, struct stat *found);
int fstat(int file, struct stat *found);
int fstatat(int folder, const char *path, struct stat *found, int how);
int fchmod(int file, mode_t mode);
#endif
