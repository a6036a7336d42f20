/* Reading the lines that tests/reckoning/generate.py and co2.py write, and tests of which each line states one call on lent bytes. */
#ifndef LINES_H
#define LINES_H

#include <stdint.h>
#include <stdio.h>
#include <stdlib.h>
#include <string.h>

#include "guard.h"
#include "lent.h"

/* The next word of a line, or NULL; *at moves past it. */
static char *next_word(char **at)
{
    char *word = *at + strspn(*at, " \n");
    if (*word == 0)
        return NULL;
    *at = word + strcspn(word, " \n");
    if (**at != 0)
        *(*at)++ = 0;
    return word;
}

static int hex_digit(char c)
{
    return c >= 'a' ? c - 'a' + 10 : c - '0';
}

/* The bytes of a word of hexadecimal digits into out; a lone '-' is no bytes. Gives their number. */
static size_t hex_bytes(const char *word, uint8_t *out)
{
    size_t n = 0;
    if (strcmp(word, "-") == 0)
        return 0;
    for (; word[2 * n] != 0; n++)
        out[n] = (uint8_t)(16 * hex_digit(word[2 * n]) + hex_digit(word[2 * n + 1]));
    return n;
}

static size_t hex_length(const char *word)
{
    return strcmp(word, "-") == 0 ? 0 : strlen(word) / 2;
}

/* Is it a word of whole bytes, or a lone '-'? */
static inline int is_hex(const char *word)
{
    size_t len = strspn(word, "0123456789abcdef");
    return strcmp(word, "-") == 0 || (len > 0 && len % 2 == 0 && word[len] == 0);
}

/* The next word's number into *value; 0 if it is none. */
static inline int next_number(char **at, uint32_t *value)
{
    const char *word = next_word(at);
    unsigned long number;
    if (word == NULL || strspn(word, "0123456789") != strlen(word))
        return 0;
    number = strtoul(word, NULL, 10);
    *value = (uint32_t)number;
    return number <= UINT32_MAX;
}

/* --- Tests of lines --- */

/* A word's bytes against a page of g; NULL if the word is none, has no whole bytes or is too long. */
static inline uint8_t *placed(guarded g, const char *word, int low, size_t *len)
{
    uint8_t *place;
    *len = 0;
    if (word == NULL || !is_hex(word) || hex_length(word) > g.room)
        return NULL;
    *len = hex_length(word);
    place = guarded_place(g, *len, low);
    hex_bytes(word, place);
    return place;
}

/* Makes the call that a line states, with its bytes against the upper pages (low is 0) or the lower ones. Gives what is wrong, or NULL. */
typedef const char *line_test(char *line, int low);

#define UNREADABLE "the line cannot be read"

/* The test of each line of standard input, against the upper and the lower pages by turns. A line that is too long, or that has no end,
 * fails: each part of it does. */
static inline int each_line(const char *name, line_test *test)
{
    static char line[1 << 20];
    catch_faults();
    while (fgets(line, sizeof line, stdin) != NULL) {
        long number = run.passed + run.failed;
        const char *wrong;
        snprintf(run.place, sizeof run.place, "%s %ld", name, number + 1);
        must_end();
        wrong = strchr(line, '\n') == NULL ? UNREADABLE : test(line, number % 2);
        if (wrong == NULL) {
            run.passed++;
        } else {
            run.failed++;
            printf("%s %ld: %s\n", name, number + 1, wrong);
        }
    }
    return finish();
}

#endif
