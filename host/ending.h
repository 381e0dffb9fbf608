/* How a command ends: its exit status, and what is said where it was not done. */
#ifndef ENDING_H
#define ENDING_H

/* Exit statuses. */
enum {
    DONE = 0,
    REFUSED = 1,        /* the library refused, a line was garbled, files are of two racks, or a soak failed */
    NOT_DONE = 2,       /* a file that cannot be read or written */
    WRONG_USAGE = 3     /* not an exit status yet: bench.c points to the command's help, and ends with NOT_DONE */
};

/* Begins a message on standard error: `bench: `, and the file that it is about, unless `name` is null. */
void begin_message(const char *name);

/* Says on standard error what is wrong with the usage; answers WRONG_USAGE. */
int wrong_usage(const char *message);

/* Says on standard error, with the reason in errno, what failed; answers NOT_DONE. */
int wrong_file(const char *name);

#endif
