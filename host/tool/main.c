/* haze: clears frames of their haze, gives their light, transmission maps and relative depths, and adds haze to clean frames. Frames are PPM files, maps and
 * depths PGM files. What is worked out, and refused, is the proved library's; here are words, files, messages and the colours of `view`. */
#include <fcntl.h>
#include <stdio.h>
#include <string.h>
#include <unistd.h>
#include "commands.h"
#include "haze.h"
#include "pages.h"
#include "say.h"

/* A standard file that is closed becomes an empty one that cannot be written; else a picture would get its number, and messages would go into the picture. */
static void keep_standard_files(void)
{
    int file;
    do file = open("/dev/null", O_RDONLY);
    while (file >= 0 && file <= STDERR_FILENO);
    if (file >= 0) close(file);
}

static int is_help(const char *word) { return !strcmp(word, "help") || !strcmp(word, "--help") || !strcmp(word, "-h"); }

static int version(void)
{
    printf("haze %s\n", HAZE_VERSION);
    return printed();
}

int main(int count, char **given)
{
    const command *c;
    words w;
    keep_standard_files();
    if (count < 2) return wrong_use(NULL, "a command is wanted", "");
    if (is_help(given[1]) && count > 3) return wrong_use(NULL, "help takes one topic, not also ", given[3]);
    if (is_help(given[1])) return print_page(given[2]);
    if (!strcmp(given[1], "--version")) return count == 2 ? version() : wrong_use(NULL, "--version takes no more words: ", given[2]);
    c = command_of(given[1]);
    if (!c) return wrong_use(NULL, "this is no command: ", given[1]);
    return take_words(c, given + 2, count - 2, &w) || c->run(&w) != 0;
}
