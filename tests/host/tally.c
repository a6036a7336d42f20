/* Compares rde_tally and rde_join with the outside reckoning, line by line from standard input:
 *     tally BLOCK OUTLEN -> bytes HEX | refused K
 *     join A B OUTLEN -> bytes HEX | refused K
 * Every buffer stands against an unreadable page. An output is filled before the call; at a refusal it must be as it was.
 * The last line is 'N passed, M failed'. */
#include <stdio.h>
#include <stdlib.h>
#include <string.h>

#include "guard.h"
#include "lent.h"
#include "lines.h"

#define FILL 0xa5

static struct {
    guarded first, second, out;
} memory;

/* Is the answer, with what stands in out, the one that the line states? */
static int agrees(rde_answer a, const uint8_t *out, size_t len, char *line)
{
    static uint8_t stated[RDE_TALLY_LEN];
    char *kind = next_word(&line), *value = next_word(&line);
    if (kind == NULL || value == NULL)
        return 0;
    if (strcmp(kind, "bytes") == 0)
        return a.refusal == 0 && a.value == 0 && len == RDE_TALLY_LEN && hex_bytes(value, stated) == len &&
               memcmp(stated, out, len) == 0;
    if (a.refusal != (uint32_t)strtoul(value, NULL, 10) || a.refusal == 0 || a.value != 0)
        return 0;
    for (size_t i = 0; i < len; i++)
        if (out[i] != FILL)
            return 0;
    return 1;
}

static const char *test(char *line, int low)
{
    const char *call = next_word(&line);
    int joins = call != NULL && strcmp(call, "join") == 0;
    size_t a_len, b_len;
    const uint8_t *a = placed(memory.first, next_word(&line), low, &a_len);
    const uint8_t *b = joins ? placed(memory.second, next_word(&line), low, &b_len) : a;
    uint8_t *out;
    uint32_t len;
    rde_answer answer;
    if (call == NULL || (!joins && strcmp(call, "tally") != 0) || a == NULL || b == NULL || !next_number(&line, &len))
        return UNREADABLE;
    out = guarded_place(memory.out, len, low);
    next_word(&line); /* the arrow */
    memset(out, FILL, len);
    answer = joins ? rde_join(a, a_len, b, b_len, out, len) : rde_tally(a, a_len, out, len);
    return agrees(answer, out, len, line) ? NULL : "differs";
}

int main(void)
{
    memory.first = guarded_new(1 << 18);
    memory.second = guarded_new(1 << 18);
    memory.out = guarded_new(1 << 12);
    return each_line("tally or join", test);
}
