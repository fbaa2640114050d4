#include "words.h"
#include <stdlib.h>
#include <string.h>

/* Whether a value is written as a number of JSON, or with `0x`. */
static bool is_written_number(const char *value) {
    const char *digits = *value == '-' ? value + 1 : value;
    bool is_hexadecimal = strncmp(digits, "0x", 2) == 0;
    if (is_hexadecimal) digits += 2;
    size_t length = strspn(digits, is_hexadecimal ? "0123456789abcdefABCDEF" : "0123456789");
    return length > 0 && digits[length] == 0 && (is_hexadecimal || *digits != '0' || length == 1);
}

/* Whether a path is this beginning of another one, up to the end of a name. */
static bool has_front(const struct word *word, const char *front, size_t length) {
    return word->path_length >= length && memcmp(word->path, front, length) == 0 &&
           (word->path_length == length || word->path[length] == '.');
}

const struct word *words_read(struct word *words, char **argv, size_t count) {
    for (size_t i = 0; i < count; i++) {
        char *equals = strchr(argv[i], '=');
        words[i].path = argv[i];
        words[i].path_length = equals != NULL ? (size_t)(equals - argv[i]) : strlen(argv[i]);
        words[i].value = equals != NULL ? equals + 1 : NULL;
        words[i].is_number = equals != NULL && is_written_number(equals + 1);
    }
    for (size_t i = 0; i < count; i++)
        for (size_t j = 0; j < count; j++)
            if (words[j].path_length > words[i].path_length &&
                has_front(&words[j], words[i].path, words[i].path_length))
                return &words[i];
    return NULL;
}

static void put_text(FILE *out, const char *text, size_t length) {
    fputc('"', out);
    for (size_t i = 0; i < length; i++) {
        unsigned char byte = (unsigned char)text[i];
        if (byte == '"' || byte == '\\') fprintf(out, "\\%c", byte);
        else if (byte < ' ') fprintf(out, "\\u%04x", byte);
        else fputc(byte, out);
    }
    fputc('"', out);
}

static void put_value(FILE *out, const struct word *word) {
    const char *value = word->value;
    bool is_below = value != NULL && *value == '-';
    if (value == NULL) fputs("true", out);
    else if (word->is_number && strncmp(value + is_below, "0x", 2) == 0)
        fprintf(out, "%s%llu", is_below ? "-" : "", strtoull(value + is_below, NULL, 16));
    else if (word->is_number || *value == '"' || *value == '[' || *value == '{') fputs(value, out);
    else put_text(out, value, strlen(value));
}

/* The value of a path, or an array of those of all words with it. */
static void put_values(FILE *out, const struct word *words, size_t count, const struct word *of) {
    size_t there = 0, written = 0;
    for (size_t i = 0; i < count; i++)
        if (words[i].path_length == of->path_length && has_front(&words[i], of->path, of->path_length)) there++;
    if (there > 1) fputc('[', out);
    for (size_t i = 0; i < count; i++) {
        if (words[i].path_length != of->path_length || !has_front(&words[i], of->path, of->path_length)) continue;
        if (written++ > 0) fputc(',', out);
        put_value(out, &words[i]);
    }
    if (there > 1) fputc(']', out);
}

/* The members of a nest, whose path and the dot behind it are the front of a word's path; of the message itself it has
 * no byte. */
static void put_members(FILE *out, const struct word *words, size_t count, const struct word *of, size_t front) {
    bool is_first = true;
    fputc('{', out);
    for (size_t i = 0; i < count; i++) {
        const char *path = words[i].path;
        if (front > 0 && (words[i].path_length < front || memcmp(path, of->path, front) != 0)) continue;
        const char *dot = memchr(path + front, '.', words[i].path_length - front);
        size_t end = dot != NULL ? (size_t)(dot - path) : words[i].path_length, before = 0;
        while (before < i && !has_front(&words[before], path, end)) before++;
        if (before < i) continue; /* its name stands there already */
        if (!is_first) fputc(',', out);
        is_first = false;
        put_text(out, path + front, end - front);
        fputc(':', out);
        if (dot != NULL) put_members(out, words, count, &words[i], end + 1);
        else put_values(out, words, count, &words[i]);
    }
    fputc('}', out);
}

void words_write(FILE *out, const char *name, const struct word *words, size_t count) {
    fputs("{\"name\":", out);
    put_text(out, name, strlen(name));
    fputs(",\"attributes\":", out);
    put_members(out, words, count, NULL, 0);
    fputc('}', out);
}

bool words_are_texts(struct word *words, size_t count, const char *refusal, size_t length) {
    static const char why[] = ": a value of another sort";
    bool are_some = false;
    for (size_t i = 0; i < count; i++) {
        size_t path = words[i].path_length;
        if (!words[i].is_number || length != path + sizeof why - 1 || memcmp(refusal, words[i].path, path) != 0 ||
            memcmp(refusal + path, why, sizeof why - 1) != 0)
            continue;
        words[i].is_number = false;
        are_some = true;
    }
    return are_some;
}
