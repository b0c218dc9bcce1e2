/* The choice of a command. */
#include <stdio.h>
#include <stdlib.h>
#include <string.h>

#include "commands.h"
#include "golay.h"

enum { FILE_BUFFER = 1 << 20 };

int main(int count, char **words)
{
    static const struct {
        const char *name;
        int (*run)(void);
    } commands[] = {
        {"send", command_send},
        {"list", command_list},
        {"read", command_read},
        {"pack", command_pack},
        {"unpack", command_unpack},
        {"calls", command_calls},
        {"vectors", command_vectors},
        {"words", command_words},
        {"longest", command_longest},
    };
    static char in_buffer[FILE_BUFFER], out_buffer[FILE_BUFFER];

    golay_init();
    setvbuf(stdin, in_buffer, _IOFBF, sizeof in_buffer);
    setvbuf(stdout, out_buffer, _IOFBF, sizeof out_buffer);
    for (size_t i = 0; i < sizeof commands / sizeof *commands; i++)
        if (count == 2 && strcmp(words[1], commands[i].name) == 0)
            return commands[i].run();
    if (count > 1 && strcmp(words[1], "index") == 0)
        return command_index(count - 2, words + 2);
    if (count > 1 && strcmp(words[1], "at") == 0)
        return command_at(count - 2, words + 2);
    fprintf(stderr, "usage: c7 send|list|read|pack|unpack|calls|vectors|words|longest\n"
                    "       c7 index RECORDING INDEX\n"
                    "       c7 at RECORDING RECORD PLACE SORT\n");
    return EXIT_FAILURE;
}
