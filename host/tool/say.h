/* What the tool says: all of it on standard error, each line beginning with `haze: `. Names come from anywhere, so a byte that a terminal would obey is shown
 * as `?`. */
#ifndef SAY_H
#define SAY_H

/* Says it, and answers 1, the status of a run that failed. */
int say(const char *format, ...) __attribute__((format(printf, 1, 2)));

/* On a terminal alone: a line that the next one takes the place of. With no text it is wiped away. */
void progress(const char *format, ...) __attribute__((format(printf, 1, 2)));

/* Sees to it that what was printed is there. Answers 0, or 1 when it has said that it is not. */
int printed(void);

/* Whether a file word is `-`, which is standard input or standard output. */
int is_standard(const char *path);

/* How messages call it. */
const char *input_name(const char *path);
const char *output_name(const char *path);
#endif
