#include "netpbm.h"
#include <errno.h>
#include <fcntl.h>
#include <stdlib.h>
#include <string.h>
#include <unistd.h>
#include "haze.h"
#include "memory.h"
#include "say.h"

/* What makes a header good that breaks off: the LF ends a comment or a number, then come three numbers, each with a white byte behind it. */
static const char END[] = "\n1 1 1 ";
#define END_LENGTH (sizeof END - 1)

/* The first look at a file. Other formats are told by their first 12 bytes. */
#define FIRST 12

static int unreadable(const netpbm *n) { return say("%s: cannot be read: %s", input_name(n->path), strerror(errno)); }

/* Reads what there is, up to so many bytes in all, or sees that the file has ended. */
static int read_some(netpbm *n, size_t all)
{
    ssize_t got;
    if (n->length >= all) return 0;
    n->bytes = resized(n->bytes, all + END_LENGTH);
    do got = read(n->file, n->bytes + n->length, all - n->length);
    while (got < 0 && errno == EINTR);
    if (got < 0) return unreadable(n);
    n->length += (size_t)got;
    n->ended = !got;
    return 0;
}

/* Asks the proved reader about what was read, with so many bytes behind it. */
static uint8_t judged(netpbm *n, uint8_t kind, size_t behind)
{
    return haze_pnm_header(n->bytes, n->length + behind, kind, &n->w, &n->h, &n->maximum, &n->start);
}

/* Whether what is not a good header yet can become one. Wherever a header may break off behind its kind, END makes it good; before, another byte decides. */
static int can_go_on(netpbm *n, uint8_t kind)
{
    if (n->length < 2) return !n->length || n->bytes[0] == 'P';
    memcpy(n->bytes + n->length, END, END_LENGTH);
    return !judged(n, kind, END_LENGTH);
}

/* A pipe may stay open, so each part that comes is looked at. Of a file twice as much is read each time, so all looks together take no longer than two at the
 * whole header. */
static int read_header(netpbm *n, uint8_t kind)
{
    size_t all = FIRST;
    while (!read_some(n, all)) {
        n->number = judged(n, kind, 0);
        if (!n->number || n->ended || !can_go_on(n, kind)) return 0;
        if (n->length == HEADER_MOST) return say("%s: its header has not ended after %d bytes: a shorter comment helps", input_name(n->path), (int)HEADER_MOST);
        if (n->length == all) all = 2 * all < HEADER_MOST ? 2 * all : HEADER_MOST;
    }
    return 1;
}

int open_netpbm(netpbm *n, const char *path, uint8_t kind)
{
    *n = (netpbm){.path = path, .file = is_standard(path) ? STDIN_FILENO : open(path, O_RDONLY | O_CLOEXEC)};
    if (n->file < 0) return unreadable(n);
    return read_header(n, kind);
}

int read_samples(netpbm *n, size_t samples)
{
    size_t all = n->start + samples + 1;
    while (n->length < all && !n->ended)
        if (read_some(n, all)) return 1;
    return 0;
}

void close_netpbm(netpbm *n)
{
    if (n->file > STDIN_FILENO) close(n->file);
    free(n->bytes);
    n->bytes = NULL;
}
