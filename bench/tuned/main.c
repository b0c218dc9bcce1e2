/* The choice of a command. Those but the first two are the second program's own text over these ends. */
#include <stdio.h>
#include <stdlib.h>
#include <string.h>

#include "commands.h"
#include "golay.h"

int main(int count, char **words)
{
    static const struct {
        const char *name;
        int (*run)(void);
    } commands[] = {
        {"send", command_send},   {"list", command_list},       {"calls", command_calls},
        {"words", command_words}, {"vectors", command_vectors}, {"longest", command_longest},
    };

    golay_init();
    for (size_t i = 0; i < sizeof commands / sizeof *commands; i++)
        if (count == 2 && strcmp(words[1], commands[i].name) == 0)
            return commands[i].run();
    fprintf(stderr, "usage: tuned send|list|calls|words|vectors|longest\n");
    return EXIT_FAILURE;
}
