#include "row.h"

#include <stdio.h>
#include <stdlib.h>
#include <string.h>

/* A block of at least `size` bytes, or the end of the program. */
static void *resized(void *block, size_t size)
{
    block = realloc(block, size);
    if (block == NULL) {
        fprintf(stderr, "no memory for a row\n");
        exit(2);
    }
    return block;
}

bool word_is(const struct word *word, const char *text)
{
    return !word->is_quoted && strcmp((const char *)word->bytes, text) == 0;
}

static void add(struct word *word, const uint8_t *bytes, size_t size, size_t times)
{
    word->bytes = resized(word->bytes, word->size + size * times + 1);
    for (; times > 0; times--) {
        memcpy(word->bytes + word->size, bytes, size);
        word->size += size;
    }
    word->bytes[word->size] = '\0';
}

/* The byte of an escape, after the backslash. */
static uint8_t unescape(const char **at)
{
    char letter = *(*at)++, digits[3] = {0};

    switch (letter) {
    case 'x':
        memcpy(digits, *at, 2);
        *at += 2;
        return (uint8_t)strtoul(digits, NULL, 16);
    case 'r':
        return '\r';
    case 'n':
        return '\n';
    case 't':
        return '\t';
    default:
        return (uint8_t)letter;
    }
}

/* Reads bytes in quotes, after the first quote. They take no more room than their text. */
static size_t read_quoted(const char **at, uint8_t *out)
{
    size_t size = 0;

    while (**at != '"') {
        char letter = *(*at)++;

        out[size++] = letter == '\\' ? unescape(at) : (uint8_t)letter;
    }
    (*at)++;
    return size;
}

/* Reads how many times a part stands, as in 3*"ab"; once where nothing says it. */
static size_t read_times(const char **at)
{
    char *end;
    size_t times = strtoul(*at, &end, 10);

    if (end == *at || *end != '*')
        return 1;
    *at = end + 1;
    return times;
}

/* Reads a part: bytes in quotes, or a plain letter. */
static void read_part(const char **at, struct word *word, uint8_t *room)
{
    size_t times = read_times(at), size = 1;

    room[0] = (uint8_t) * *at;
    (*at)++;
    if (room[0] == '"') {
        word->is_quoted = true;
        size = read_quoted(at, room);
    }
    add(word, room, size, times);
}

const char *word_read(const char *text, struct word *word)
{
    const struct word empty = {0};
    uint8_t *room = resized(NULL, strlen(text) + 1);

    *word = empty;
    add(word, room, 0, 0);
    while (*text != ' ' && *text != '\0')
        read_part(&text, word, room);
    free(room);
    return text;
}

/* Reads the words of a row, and what is wanted of it. */
static void read_row(const char *at, struct row *row)
{
    while (*at == ' ' && strncmp(at, " =>", 3) != 0) {
        row->words = resized(row->words, (row->count + 1) * sizeof *row->words);
        at = word_read(at + 1, &row->words[row->count++]);
    }
    row->wanted = at;
    if (*at == ' ')
        row->wanted += at[3] == ' ' ? 4 : 3;
}

static void clear_row(struct row *row)
{
    for (size_t i = 0; i < row->count; i++)
        free(row->words[i].bytes);
    free(row->words);
}

/* The task that a line begins with, if it is one of these. */
static const char *task_of(const char *line, const char *const *tasks)
{
    for (; *tasks != NULL; tasks++) {
        size_t size = strlen(*tasks);

        if (strncmp(line, *tasks, size) == 0 && line[size] == ' ')
            return *tasks;
    }
    return NULL;
}

/* A whole file, with a NUL after it. */
static char *contents(const char *name)
{
    FILE *file = fopen(name, "rb");
    char *text = NULL;
    size_t size = 0, more;

    if (file == NULL) {
        perror(name);
        exit(2);
    }
    do {
        text = resized(text, size + 4096 + 1);
        more = fread(text + size, 1, 4096, file);
        size += more;
    } while (more > 0);
    fclose(file);
    text[size] = '\0';
    return text;
}

static bool run_line(const char *line, const char *const *tasks, void (*run)(const struct row *row))
{
    struct row row = {0};

    row.task = task_of(line, tasks);
    if (row.task == NULL)
        return false;
    read_row(line + strlen(row.task), &row);
    run(&row);
    clear_row(&row);
    return true;
}

unsigned long rows_run(const char *name, const char *const *tasks,
                       void (*run)(const struct row *row))
{
    char *text = contents(name), *line = text;
    unsigned long rows = 0;

    while (*line != '\0') {
        char *end = line + strcspn(line, "\n");
        bool is_last = *end == '\0';

        *end = '\0';
        rows += run_line(line, tasks, run);
        line = is_last ? end : end + 1;
    }
    free(text);
    return rows;
}
