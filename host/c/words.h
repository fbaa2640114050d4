/* A message in JSON (docs/WRITING.md), from the words of a command line: `PATH=VALUE` is an attribute or a field, by
 * the names of nests from the outside in and its own, with dots between them, and `PATH` alone a flag.
 *
 * A value is a number where it is written as one, JSON where it begins with a quote, a bracket or a brace, and else a
 * text. Words with one path are several attributes; those of a nest stand in one, wherever they stand. */
#ifndef WORDS_H
#define WORDS_H

#include <stdbool.h>
#include <stddef.h>
#include <stdio.h>

struct word {
    const char *path, *value; /* the value is NULL for a flag */
    size_t path_length;
    bool is_number;
};

/* Reads words. The first that has a value, and that another one takes for a nest; NULL if there is none. */
const struct word *words_read(struct word *words, char **argv, size_t count);

/* Writes the object of the message with this name. */
void words_write(FILE *out, const char *name, const struct word *words, size_t count);

/* Takes numbers for texts, as of a name `7`, where the refusal `PATH: a value of another sort` is about them; false if
 * it is about none. */
bool words_are_texts(struct word *words, size_t count, const char *refusal, size_t length);

#endif
