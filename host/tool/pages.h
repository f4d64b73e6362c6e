/* The help: pages of text, one for each command and some beside. They stand as files in host/help, and are built into the tool. */
#ifndef PAGES_H
#define PAGES_H
#include <stdio.h>

/* The page of a topic, or of the whole tool where it is NULL, on standard output. Answers 0, or 1 when it cannot be written or there is none, which is said. */
int print_page(const char *topic);

/* The first lines of a page, which say how the command is used, and where the rest is found. */
void usage_of(const char *topic, FILE *to);
#endif
