#include "outputs.h"
#include <errno.h>
#include <fcntl.h>
#include <signal.h>
#include <stdio.h>
#include <stdlib.h>
#include <string.h>
#include <sys/file.h>
#include <time.h>
#include <unistd.h>
#include "memory.h"
#include "say.h"

static int unwritable(const output *o, const char *why) { return say("%s: cannot be written: %s", output_name(o->path), why); }

output new_output(const char *path, content file) { return (output){.path = path, .file = file, .folder = -1, .unfinished = -1}; }

/* ---- signals */

/* Those that do not end a program. One that cannot be caught is among them. */
static const int harmless[] = {SIGKILL, SIGSTOP, SIGTSTP, SIGTTIN, SIGTTOU, SIGCHLD, SIGCONT, SIGURG, SIGWINCH};

#define HARMLESS (int)(sizeof harmless / sizeof *harmless)

static int is_harmless(int number)
{
    int k = 0;
    while (k < HARMLESS && harmless[k] != number) k++;
    return k < HARMLESS;
}

/* What a signal has to remove. */
static output *volatile underway = NULL;
static volatile sig_atomic_t underway_count = 0;

static void remove_unfinished(void)
{
    int k;
    for (k = 0; k < underway_count; k++)
        if (underway[k].unfinished >= 0) unlinkat(underway[k].folder, underway[k].new_name, 0);
}

/* The signal then does what it does by itself. */
static void on_signal(int number)
{
    struct sigaction usual = {.sa_handler = SIG_DFL};
    remove_unfinished();
    sigaction(number, &usual, NULL);
    raise(number);
}

/* A signal that is ignored, as nohup has it, stays ignored, and one that something else has caught stays caught. */
static void catch_signals(void)
{
    struct sigaction ours = {.sa_handler = on_signal}, old;
    int number;
    for (number = 1; number <= SIGRTMAX; number++)
        if (!is_harmless(number) && !sigaction(number, NULL, &old) && old.sa_handler == SIG_DFL) sigaction(number, &ours, NULL);
}

/* Between a file's change of name and the note of it no signal is let in. */
static sigset_t hold_signals(void)
{
    sigset_t all, old;
    sigfillset(&all);
    sigprocmask(SIG_BLOCK, &all, &old);
    return old;
}

static void let_signals(sigset_t old) { sigprocmask(SIG_SETMASK, &old, NULL); }

/* ---- where a file goes */

/* The folder is held open: names in it are then short, however long its path is. Where it cannot be read, it can still be written to. */
static int open_folder(output *o)
{
    const char *slash = strrchr(o->path, '/');
    size_t length = slash ? (size_t)(slash - o->path) : 0;
    char *folder = memory(length + sizeof "/.");
    snprintf(folder, length + sizeof "/.", "%.*s%s", (int)length, o->path, slash ? "/." : ".");
    o->name = slash ? slash + 1 : o->path;
    o->folder = open(folder, O_RDONLY | O_DIRECTORY | O_CLOEXEC);
    if (o->folder < 0) o->folder = open(folder, O_PATH | O_DIRECTORY | O_CLOEXEC);
    free(folder);
    return o->folder < 0 ? unwritable(o, strerror(errno)) : 0;
}

static int find_place(output *o)
{
    if (is_standard(o->path)) return 0;
    if (open_folder(o)) return 1;
    if (!*o->name) return unwritable(o, strerror(EISDIR));
    if (fstatat(o->folder, o->name, &o->old, AT_SYMLINK_NOFOLLOW)) {
        o->old.st_mode = 0;
        return errno == ENOENT ? 0 : unwritable(o, strerror(errno));
    }
    return S_ISREG(o->old.st_mode) ? 0 : unwritable(o, "it is there and is not a plain file");
}

int is_same_file(const char *a, const char *b)
{
    struct stat found_a, found_b;
    if (is_standard(a) || is_standard(b) || stat(a, &found_a) || stat(b, &found_b)) return 0;
    return found_a.st_dev == found_b.st_dev && found_a.st_ino == found_b.st_ino;
}

static int same_place(const output *a, const output *b)
{
    struct stat folder_a, folder_b;
    if (a->folder < 0 || b->folder < 0) return a->folder < 0 && b->folder < 0;
    if (strcmp(a->name, b->name) || fstat(a->folder, &folder_a) || fstat(b->folder, &folder_b)) return 0;
    return folder_a.st_dev == folder_b.st_dev && folder_a.st_ino == folder_b.st_ino;
}

static int same_place_before(const output *outputs, int k)
{
    int j = 0;
    while (j < k && !same_place(outputs + j, outputs + k)) j++;
    return j < k;
}

static int find_places(output *outputs, int count)
{
    int k;
    for (k = 0; k < count; k++) {
        if (find_place(outputs + k)) return 1;
        if (same_place_before(outputs, k)) return unwritable(outputs + k, "two files of this run would go there");
    }
    return 0;
}

/* ---- the new file */

/* So much of a name is in the new file's name that it says whose it is, and a number and its ending still fit under every system's limit. */
#define KEPT_OF_NAME 100

static int kept_of(const char *name)
{
    size_t n = strlen(name);
    if (n > KEPT_OF_NAME) n = KEPT_OF_NAME;
    while (n && ((unsigned char)name[n] & 0xC0) == 0x80) n--; /* a letter of UTF-8 is not cut */
    return (int)n;
}

/* A new file is held by its run from the moment on that it is there. Between two runs that is so because each holds the folder meanwhile; one that cannot have
 * it within a tenth of a second does without. */
static int hold_folder(const output *o)
{
    const struct timespec moment = {0, 1000000};
    int tries = 100;
    int refused = flock(o->folder, LOCK_EX | LOCK_NB);
    for (; refused && errno == EWOULDBLOCK && tries; tries--) {
        nanosleep(&moment, NULL);
        refused = flock(o->folder, LOCK_EX | LOCK_NB);
    }
    return !refused;
}

/* Whether the plain file that is open still has that name; another run may have given it its own since it was opened. */
static int is_still(const output *o, int file)
{
    struct stat held, named;
    if (fstat(file, &held) || !S_ISREG(held.st_mode) || fstatat(o->folder, o->new_name, &named, AT_SYMLINK_NOFOLLOW)) return 0;
    return held.st_dev == named.st_dev && held.st_ino == named.st_ino;
}

/* So a plain file that nobody holds may have been left by a run that was killed. */
static void name_leftover(const output *o)
{
    int file = openat(o->folder, o->new_name, O_RDONLY | O_NONBLOCK | O_NOFOLLOW | O_CLOEXEC);
    if (file < 0) return;
    if (!flock(file, LOCK_EX | LOCK_NB) && is_still(o, file))
        say("%.*s%s: nobody writes it; a run that was killed may have left it", (int)(o->name - o->path), o->path, o->new_name);
    close(file);
}

/* The first number that is free. */
static int create(output *o)
{
    int held = hold_folder(o), why = EEXIST;
    unsigned k;
    for (k = 0; o->unfinished < 0 && why == EEXIST; k++) {
        snprintf(o->new_name, sizeof o->new_name, "%.*s.%u.new", kept_of(o->name), o->name, k);
        o->unfinished = openat(o->folder, o->new_name, O_WRONLY | O_CREAT | O_EXCL | O_CLOEXEC, o->old.st_mode ? 0600 : 0666);
        why = errno;
        if (o->unfinished < 0 && why == EEXIST && held) name_leftover(o);
    }
    if (o->unfinished >= 0) flock(o->unfinished, LOCK_EX | LOCK_NB);
    flock(o->folder, LOCK_UN);
    return o->unfinished < 0 ? unwritable(o, strerror(why)) : 0;
}

static int write_all(const output *o, int file)
{
    size_t done = 0;
    ssize_t put = 0;
    while (done < o->file.length && put >= 0) {
        put = write(file, o->file.bytes + done, o->file.length - done);
        if (put >= 0) done += (size_t)put;
        else if (errno == EINTR) put = 0;
    }
    return put < 0 ? unwritable(o, strerror(errno)) : 0;
}

/* The new file gets the old one's owner and mode, as far as that can be had: who may not read the old one never may the new one. */
static void take_after(const output *o)
{
    if (!o->old.st_mode) return;
    if (fchown(o->unfinished, o->old.st_uid, o->old.st_gid)) errno = 0; /* for root alone */
    if (fchmod(o->unfinished, o->old.st_mode & 07777)) errno = 0;       /* not every file system has modes */
}

/* The whole new file, on the disk. */
static int make(output *o)
{
    sigset_t old;
    int failed;
    if (is_standard(o->path)) return 0;
    old = hold_signals();
    failed = create(o);
    let_signals(old);
    if (failed) return 1;
    take_after(o);
    if (write_all(o, o->unfinished)) return 1;
    return fsync(o->unfinished) ? unwritable(o, strerror(errno)) : 0;
}

static int take_name(output *o)
{
    if (o->unfinished < 0) return 0;
    if (renameat(o->folder, o->new_name, o->folder, o->name)) return unwritable(o, strerror(errno));
    close(o->unfinished);
    o->unfinished = -1;
    return 0;
}

/* The new name goes to the disk too, where the system can do that for a folder. */
static int settle(output *o)
{
    if (o->folder < 0 || !fsync(o->folder) || errno == EINVAL || errno == EBADF) return 0;
    return say("%s: is written, but the disk may not have its name: %s", o->path, strerror(errno));
}

/* ---- all of them */

static int each(int (*step)(output *), output *outputs, int count)
{
    int k, failed = 0;
    for (k = 0; k < count && !failed; k++) failed = step(outputs + k);
    return failed;
}

static int put_out(output *o) { return is_standard(o->path) ? write_all(o, STDOUT_FILENO) : 0; }

static int let_go(output *o)
{
    if (o->unfinished >= 0) close(o->unfinished);
    if (o->folder >= 0) close(o->folder);
    o->unfinished = o->folder = -1;
    free(o->file.bytes);
    return 0;
}

/* The files take their names, and what is unfinished then goes. No signal comes between two names. */
static int take_names(output *outputs, int count, int failed)
{
    sigset_t old = hold_signals();
    if (!failed) failed = each(take_name, outputs, count);
    remove_unfinished();
    underway_count = 0;
    let_signals(old);
    return failed;
}

int write_outputs(output *outputs, int count)
{
    int failed;
    catch_signals();
    underway = outputs;
    underway_count = count;
    failed = find_places(outputs, count) || each(make, outputs, count) || each(put_out, outputs, count);
    failed = take_names(outputs, count, failed) || each(settle, outputs, count);
    each(let_go, outputs, count);
    return failed;
}
