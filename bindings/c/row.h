/* Rows of crates/resp_vectors, as crates/resp_vectors/ROWS.md says. */
#ifndef RESP_ROW_H
#define RESP_ROW_H

#include <stdbool.h>
#include <stddef.h>
#include <stdint.h>

/* A word, with a NUL after its bytes. */
struct word {
    uint8_t *bytes;
    size_t size;
    bool is_quoted; /* whether it begins with bytes in quotes */
};

/* A row: its task, its words, and the wanted answer. */
struct row {
    const char *task;
    struct word *words;
    size_t count;
    const char *wanted;
};

/* Whether a word is this text, without quotes. */
bool word_is(const struct word *word, const char *text);

/* Reads a word from the start of a text, and returns where it ends. The caller frees its bytes. */
const char *word_read(const char *text, struct word *word);

/*
 * Calls `run` for each row of a file whose task is one of `tasks`, which ends with NULL. Returns
 * how many there were. Ends the program where the file can't be read.
 */
unsigned long rows_run(const char *name, const char *const *tasks,
                       void (*run)(const struct row *row));

#endif
