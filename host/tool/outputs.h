/* The files that a run writes, each there whole or not at all, whatever happens: each is first written under a name of its own beside the old file, and on the
 * disk before it takes the old one's name. A signal that ends the run removes what is unfinished; what a killed run has left is named and left alone. */
#ifndef OUTPUTS_H
#define OUTPUTS_H
#include <sys/stat.h>
#include "frames.h"

#define OUTPUTS_MOST 3
#define NEW_NAME_ROOM 128 /* 100 bytes of the old name, a number and an ending */

typedef struct {
    const char *path; /* `-` is standard output */
    content file;
    int folder, unfinished;      /* from here on for outputs.c alone */
    const char *name;            /* of the file in its folder */
    struct stat old;             /* the file that is there, where its mode is not 0 */
    char new_name[NEW_NAME_ROOM];
} output;

output new_output(const char *path, content file);

/* Each of them whole or not at all, and none before all are on the disk; what goes wrong is said, and the answer is 1. They take their names one after the
 * other, so where the system refuses one of the names the files before it are new. An old file is replaced, and its mode is kept. A name that stands for
 * anything but a plain file is left alone: to replace a device or a link by a file would harm what others see under that name. The contents are freed. */
int write_outputs(output *outputs, int count);

/* Whether both names stand for one file that is there. */
int is_same_file(const char *a, const char *b);
#endif
