/* Compares rde_co2 with the outside reckoning, line by line from standard input:
 *     co2 BLOCK REFERENCE -> REFUSAL COMPLETE NORMAL PASS
 * Block and reference record stand against an unreadable page. Each call is made twice: both answers must be the stated one, field by
 * field, and no byte of block or reference record may be changed.
 * The last line is 'N passed, M failed'. */
#include <stdio.h>
#include <string.h>

#include "guard.h"
#include "lent.h"
#include "lines.h"

#define ROOM (1 << 18) /* more than the longest block stated, of 14403 records */

static struct {
    guarded block, reference;
} memory;

/* The answer that a line states, to its end; 0 if it states none, or one that no call may give. */
static int parse_answer(char **at, rde_co2_answer *a)
{
    const char *arrow = next_word(at);
    if (arrow == NULL || strcmp(arrow, "->") != 0 || !next_number(at, &a->refusal) || !next_number(at, &a->complete) ||
        !next_number(at, &a->normal) || !next_number(at, &a->pass) || next_word(at) != NULL)
        return 0;
    return a->refusal == 0 ? a->normal <= a->complete && a->pass <= 1 : a->complete == 0 && a->normal == 0 && a->pass == 0;
}

static int same(rde_co2_answer a, rde_co2_answer b)
{
    return a.refusal == b.refusal && a.complete == b.complete && a.normal == b.normal && a.pass == b.pass;
}

static const char *difference(const char *call, rde_co2_answer is, rde_co2_answer should)
{
    static char text[200];
    snprintf(text, sizeof text, "the %s call answers %u %u %u %u, stated is %u %u %u %u", call, is.refusal, is.complete, is.normal, is.pass,
             should.refusal, should.complete, should.normal, should.pass);
    return text;
}

/* Are the bytes still those of the word? */
static int kept(const uint8_t *bytes, const char *word)
{
    static uint8_t stated[ROOM];
    size_t len = hex_bytes(word, stated);
    return memcmp(bytes, stated, len) == 0;
}

static const char *test(char *line, int low)
{
    const char *call = next_word(&line), *block_word = next_word(&line), *reference_word = next_word(&line);
    size_t block_len, reference_len;
    const uint8_t *block = placed(memory.block, block_word, low, &block_len);
    const uint8_t *reference = placed(memory.reference, reference_word, low, &reference_len);
    rde_co2_answer stated, first, second;
    if (call == NULL || strcmp(call, "co2") != 0 || block == NULL || reference == NULL || !parse_answer(&line, &stated))
        return UNREADABLE;
    first = rde_co2(block, block_len, reference, reference_len);
    second = rde_co2(block, block_len, reference, reference_len);
    if (!kept(block, block_word))
        return "the block is changed";
    if (!kept(reference, reference_word))
        return "the reference record is changed";
    if (!same(first, stated))
        return difference("first", first, stated);
    return same(second, stated) ? NULL : difference("second", second, stated);
}

int main(void)
{
    memory.block = guarded_new(ROOM);
    memory.reference = guarded_new(GUARD_PAGE);
    return each_line("co2", test);
}
