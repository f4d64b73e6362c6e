/* The commands. Each answers 0, or says what is wrong and answers something else. */
#ifndef COMMANDS_H
#define COMMANDS_H
#include "words.h"

/* The command of that name, or NULL. */
const command *command_of(const char *name);
#endif
