/* A binary Netpbm file, read no farther than it takes to judge it: up to the header's end, then the samples that the header announces and one byte more. The
 * header is read in parts, so up to as many bytes behind it as it has itself may be read too. The file may be of any kind: a plain file, a pipe, a device that
 * never ends. What goes wrong is said. */
#ifndef NETPBM_H
#define NETPBM_H
#include <stddef.h>
#include <stdint.h>

typedef struct {
    const char *path; /* as it was given; `-` is standard input */
    int file, ended;
    uint8_t *bytes;
    size_t length;
    uint8_t number;                  /* 0 or 11, as the proved reader of headers judges the file */
    uint64_t w, h, maximum, start;   /* of a good header: its numbers, and where the samples begin */
} netpbm;

/* A comment in a header has no limit of its own. */
#define HEADER_MOST ((size_t)1 << 20)

/* The header: kind is '6' for PPM, '5' for PGM. Answers 0 with the number set, or 1 when the file cannot be read or has a header longer than HEADER_MOST.
 * Either way the file is to be closed. */
int open_netpbm(netpbm *n, const char *path, uint8_t kind);

/* The samples, so many bytes, and one byte more where there is one. */
int read_samples(netpbm *n, size_t samples);

void close_netpbm(netpbm *n);
#endif
