/* Memory that is lent to a call between guard bytes. */
#ifndef LOANS_H
#define LOANS_H
#include <stddef.h>
#include <stdint.h>
#include <string.h>

#define GUARD 64
#define GUARD_BYTE 0xa5
#define ROOM(bytes) ((bytes) + 2 * GUARD)

typedef struct {
    const char *name;
    uint8_t *room;     /* where the guard before it begins: ROOM(bytes) bytes or more */
    size_t bytes, unit;
    uint64_t seed;     /* of what stands in it, where a seed tells that */
    int guarded;
} loan;

static inline void *lent(const loan *l) { return l->room + GUARD; }
static inline size_t entries(const loan *l) { return l->bytes / l->unit; }

/* Fresh guards around n entries. */
static inline void *guard(loan *l, size_t n)
{
    l->bytes = n * l->unit;
    l->guarded = 1;
    memset(l->room, GUARD_BYTE, GUARD);
    memset(l->room + GUARD + l->bytes, GUARD_BYTE, GUARD);
    return lent(l);
}

/* The first guard byte that was written, or NULL. */
static inline const uint8_t *broken(const loan *l)
{
    size_t i;
    if (!l->guarded) return NULL;
    for (i = 0; i < GUARD; i++) {
        if (l->room[i] != GUARD_BYTE) return l->room + i;
        if (l->room[GUARD + l->bytes + i] != GUARD_BYTE) return l->room + GUARD + l->bytes + i;
    }
    return NULL;
}
#endif
