#include "many.h"
#include <errno.h>
#include <stdio.h>
#include <stdlib.h>
#include <string.h>
#include <sys/stat.h>
#include "clearing.h"
#include "memory.h"
#include "say.h"

static const char *name_of(const char *path)
{
    const char *slash = strrchr(path, '/');
    return slash ? slash + 1 : path;
}

static char *path_in(const char *folder, const char *name)
{
    size_t room = strlen(folder) + strlen(name) + sizeof "/";
    char *path = memory(room);
    snprintf(path, room, "%s/%s", folder, name);
    return path;
}

/* ---- what can be seen to be wrong before anything is written */

static int same_name_before(const words *w, int k)
{
    int j = 0;
    while (j < k && strcmp(name_of(w->files[j]), name_of(w->files[k]))) j++;
    return j < k;
}

/* Which files stand in the folder under the names of the frames; one that is not there has the number 0. */
static void find_old(const words *w, struct stat *old)
{
    int k;
    for (k = 0; k < w->count; k++) {
        char *out = path_in(w->folder, name_of(w->files[k]));
        if (stat(out, old + k)) old[k].st_ino = 0;
        free(out);
    }
}

/* Whether the frame is one of the files that would be replaced, by whatever name. */
static int is_replaced(const words *w, const char *in, const struct stat *old)
{
    struct stat found;
    int k = 0;
    if (stat(in, &found)) return 0;
    while (k < w->count && (old[k].st_ino != found.st_ino || old[k].st_dev != found.st_dev)) k++;
    return k < w->count;
}

static int wrong_file(const words *w, int k, const struct stat *old)
{
    const char *in = w->files[k];
    if (is_standard(in)) return say("with -o every frame is a file; standard input has no name to go by");
    if (same_name_before(w, k)) return say("%s: another frame of this run has the same name; in %s there can be one", in, w->folder);
    return is_replaced(w, in, old) ? say("%s: stands in %s and would be replaced itself; name another folder", in, w->folder) : 0;
}

static int wrong_folder(const char *folder)
{
    struct stat found;
    if (stat(folder, &found)) return say("%s: is no folder to write to: %s", folder, strerror(errno));
    return S_ISDIR(found.st_mode) ? 0 : say("%s: is no folder to write to", folder);
}

static int wrong_files(const words *w)
{
    struct stat *old;
    int k, wrong = 0;
    if (wrong_folder(w->folder)) return 1;
    old = memory((size_t)w->count * sizeof *old);
    find_old(w, old);
    for (k = 0; k < w->count && !wrong; k++) wrong = wrong_file(w, k, old);
    free(old);
    return wrong;
}

/* ---- the run */

static int one_of_many(const words *w, int k, int (*one)(const words *w, const char *in, const char *out))
{
    char *out = path_in(w->folder, name_of(w->files[k]));
    int how;
    progress("%d of %d: %s", k + 1, w->count, w->files[k]);
    how = one(w, w->files[k], out);
    free(out);
    return how;
}

int for_many(const words *w, int (*one)(const words *w, const char *in, const char *out))
{
    int k, failed = 0, how = DONE;
    if (wrong_files(w)) return FAILED;
    for (k = 0; k < w->count && how != WRONG_WORDS; k++) {
        how = one_of_many(w, k, one);
        if (how == FAILED) failed++;
    }
    progress("%s", "");
    if (how == WRONG_WORDS) return how;
    return failed ? say("%d of %d frames failed", failed, w->count) : DONE;
}
