/* The commands: each gives the exit status. */
#ifndef COMMANDS_H
#define COMMANDS_H

/* These read standard input and write standard output. */
int command_send(void);
int command_list(void);
int command_read(void);
int command_pack(void);
int command_unpack(void);
int command_calls(void);
int command_vectors(void);
int command_words(void);
int command_longest(void);

/* These take words, and read the files that they name. */
int command_index(int count, char **words);
int command_at(int count, char **words);

#endif
