#include "say.h"
#include <stdarg.h>
#include <stdio.h>
#include <string.h>
#include <sys/ioctl.h>
#include <unistd.h>

/* A line has two names at most, and a name of the system 4096 bytes; a longer line is cut. */
#define LINE_ROOM 10000

/* How many bytes of the terminal's line are to be wiped away. */
static int shown = 0;

/* Whether a terminal may obey what begins here: the bytes below the blank, the one behind ~, and the letters of UTF-8 from 80 to 9F. */
static int is_obeyed(const unsigned char *at) { return *at < ' ' || *at == 127 || (*at == 0xC2 && at[1] >= 0x80 && at[1] < 0xA0); }

/* The line, made plain. */
static void make_line(char *line, size_t room, const char *format, va_list values)
{
    unsigned char *at = (unsigned char *)line;
    vsnprintf(line, room, format, values);
    for (; *at; at++) {
        if (!is_obeyed(at)) continue;
        if (*at == 0xC2) *at++ = '?';
        *at = '?';
    }
}

static void wipe_progress(void)
{
    if (shown) fprintf(stderr, "\r%*s\r", shown, "");
    shown = 0;
}

int say(const char *format, ...)
{
    char line[LINE_ROOM];
    va_list values;
    va_start(values, format);
    make_line(line, sizeof line, format, values);
    va_end(values);
    wipe_progress();
    fprintf(stderr, "haze: %s\n", line);
    return 1;
}

/* How many bytes of a line fit on the terminal; one that went over two rows could not be wiped away. A letter of UTF-8 is not cut. */
static int fitting(const char *line)
{
    struct winsize size;
    size_t width = ioctl(STDERR_FILENO, TIOCGWINSZ, &size) || !size.ws_col ? 80 : size.ws_col, n = strlen(line);
    if (n >= width) n = width - 1;
    while (n && ((unsigned char)line[n] & 0xC0) == 0x80) n--;
    return (int)n;
}

void progress(const char *format, ...)
{
    char line[LINE_ROOM];
    va_list values;
    if (!isatty(STDERR_FILENO)) return;
    va_start(values, format);
    make_line(line, sizeof line, format, values);
    va_end(values);
    wipe_progress();
    shown = fitting(line);
    fprintf(stderr, "%.*s", shown, line);
    fflush(stderr);
}

int printed(void) { return fflush(stdout) ? say("standard output: cannot be written") : 0; }

int is_standard(const char *path) { return !strcmp(path, "-"); }

const char *input_name(const char *path) { return is_standard(path) ? "standard input" : path; }

const char *output_name(const char *path) { return is_standard(path) ? "standard output" : path; }
