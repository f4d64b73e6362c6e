/* The words behind a command: options, which begin with `-` and may stand anywhere; files; and behind them settings and what is like them. What a command does not take is an error that is
 * said, and nothing is done. */
#ifndef WORDS_H
#define WORDS_H
#include <stdint.h>
#include "frames.h"
#include "haze.h"

/* The words that are no files: the six settings, in the order of struct haze_settings; others with a value; some without; and two options, -v and -o. */
enum { S, R, OMEGA, E, T0, SHARE, SETTINGS, LIGHT = SETTINGS, MASK, MAP, DEPTH, T, BARE, IS_RAW = BARE, IS_SCALED, IS_DEPTH, KINDS, TIMES = KINDS, FOLDER };

#define TAKES(kind) (1u << (kind))
#define TAKES_SETTINGS (TAKES(SETTINGS) - 1 + TAKES(LIGHT) + TAKES(MASK) + TAKES(TIMES)) /* what a command takes that clears a frame */

typedef struct {
    char **files;
    int count;           /* of files */
    const char *folder;  /* behind -o */
    int times;           /* whether -v asks for light, comparisons and times */
    struct haze_settings settings;
    struct haze_rgb light;
    const char *mask, *map, *depth;
    uint64_t t;
    int given[KINDS];
} words;

#define PLACES_MOST 3

typedef struct {
    const char *name;
    const char *places[PLACES_MOST]; /* what its files are called, and numbers in their place; NULL behind the last */
    unsigned takes;                  /* which kinds of words */
    int (*run)(const words *w);
} command;

/* Takes the words behind the command apart; they are put in another order, the files first. Answers 1 when it has said what is wrong. */
int take_words(const command *c, char **given, int count, words *w);

/* Says what is wrong with the use of a command, or of the tool where it is NULL, and how it is used. Answers 1. */
int wrong_use(const char *name, const char *what, const char *word);

/* A whole number of 1 to 20 digits and nothing else. */
int number_in(const char *text, uint64_t *value);

/* Which setting the library refuses, its value and its range. Answers 1. */
int refuse_settings(const words *w);
#endif
