/* Stands before the C library's calls on files when the tests of the tool preload it, and does what the environment says:
 *   FAULTS_LOG=FILE       a line for each call, in order
 *   FAULTS_FAIL=CALL:N:E  the N-th call of that name, from 1, fails with the error number E
 *   FAULTS_WAIT=CALL:N    the N-th call waits for a signal, or until the file FAULTS_GO is there; that it waits is in the log
 *   FAULTS_SHORT=1        a write writes one byte at most
 * It compiles without the system's headers, as the other host programs do. */
#include <errno.h>
#include <fcntl.h>
#include <stddef.h>
#include <stdio.h>
#include <stdlib.h>
#include <string.h>
#include <sys/stat.h>
#include <time.h>
#include <unistd.h>

long syscall(long number, ...);
char *getenv(const char *name);

enum { READ, WRITE, FSYNC, RENAMEAT, FCHMOD, FLOCK, CALLS };

static const char *const names[CALLS] = {"read", "write", "fsync", "renameat", "fchmod", "flock"};
static const long numbers[CALLS] = {0, 1, 74, 264, 91, 73}; /* of the system, on x86-64 */
static int made[CALLS];

static void note(const char *text, const char *more)
{
    char line[600];
    const char *path = getenv("FAULTS_LOG");
    int length = snprintf(line, sizeof line, "%s%s\n", text, more);
    long log = path ? syscall(2, path, O_WRONLY | O_CREAT | 02000, 0666) : -1; /* open, to append */
    if (log < 0) return;
    syscall(1, log, line, length);
    syscall(3, log);
}

/* Whether the setting names this very call; what follows its number goes to rest. */
static int is_now(const char *setting, int call, const char **rest)
{
    const char *text = getenv(setting);
    size_t n = strlen(names[call]);
    if (!text || strncmp(text, names[call], n) || text[n] != ':' || atoi(text + n + 1) != made[call]) return 0;
    *rest = strchr(text + n + 1, ':');
    return 1;
}

/* Looks for the file every millisecond. */
static void wait_to_go(void)
{
    const char *path = getenv("FAULTS_GO");
    const struct timespec moment = {0, 1000000};
    note("waits", "");
    while (!path || syscall(21, path, 0)) nanosleep(&moment, NULL); /* access */
}

/* Whether the call is to fail, with errno set. */
static int fails(int call, const char *about)
{
    const char *rest = NULL;
    made[call]++;
    note(names[call], about);
    if (is_now("FAULTS_WAIT", call, &rest)) wait_to_go();
    if (!is_now("FAULTS_FAIL", call, &rest)) return 0;
    errno = atoi(rest + 1);
    return 1;
}

/* The call itself. An error of the system is a small negative number, and the C library's function has set errno. */
static long by_system(int call, long a, long b, long c, long d) { return syscall(numbers[call], a, b, c, d); }

static const char *kind_of(int file)
{
    struct stat found;
    if (fstat(file, &found)) return " nothing";
    return S_ISDIR(found.st_mode) ? " folder" : S_ISREG(found.st_mode) ? " file" : " other";
}

ssize_t read(int file, void *to, size_t room) { return fails(READ, kind_of(file)) ? -1 : by_system(READ, file, (long)to, (long)room, 0); }

ssize_t write(int file, const void *from, size_t length)
{
    if (file == STDERR_FILENO) return by_system(WRITE, file, (long)from, (long)length, 0);
    if (fails(WRITE, kind_of(file))) return -1;
    return by_system(WRITE, file, (long)from, getenv("FAULTS_SHORT") && length ? 1 : (long)length, 0);
}

int fsync(int file) { return fails(FSYNC, kind_of(file)) ? -1 : (int)by_system(FSYNC, file, 0, 0, 0); }

int fchmod(int file, mode_t mode) { return fails(FCHMOD, kind_of(file)) ? -1 : (int)by_system(FCHMOD, file, (long)mode, 0, 0); }

int flock(int file, int how) { return fails(FLOCK, kind_of(file)) ? -1 : (int)by_system(FLOCK, file, how, 0, 0); }

int renameat(int from_folder, const char *from, int to_folder, const char *to)
{
    char about[560];
    snprintf(about, sizeof about, " %.255s %.255s", from, to);
    return fails(RENAMEAT, about) ? -1 : (int)by_system(RENAMEAT, from_folder, (long)from, to_folder, (long)to);
}
