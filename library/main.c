/* The second program's commands over the library's ends, but for those that look at a Golay word or into a receiver. */
#include <stdio.h>
#include <stdlib.h>
#include <string.h>

#include "commands.h"

int main(int count, char **words)
{
    static const struct {
        const char *name;
        int (*run)(void);
    } commands[] = {
        {"send", command_send},   {"list", command_list},     {"read", command_read},   {"pack", command_pack},
        {"unpack", command_unpack}, {"calls", command_calls}, {"longest", command_longest},
    };

    for (size_t i = 0; i < sizeof commands / sizeof *commands; i++)
        if (count == 2 && strcmp(words[1], commands[i].name) == 0)
            return commands[i].run();
    fprintf(stderr, "usage: library send|list|read|pack|unpack|calls|longest\n");
    return EXIT_FAILURE;
}
