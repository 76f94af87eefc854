/* The header's functions, called from C: reads lines of RULE WORDS HEX and prints what each call returns and writes. The test
 * tests/declarations.rs compares that with the same calls through src/ours.rs. */
#include "elbomavund.h"

#include <inttypes.h>
#include <stdio.h>
#include <stdlib.h>
#include <string.h>

/* the types, once more: another prototype does not compile */
static uint32_t (*const read_)(uint32_t, const uint8_t *, size_t, uint32_t *, size_t, uint64_t *, size_t) = elbomavund_read;
static uint32_t (*const view_)(size_t, const uint32_t *, size_t, size_t, uint64_t *, size_t) = elbomavund_view;

_Static_assert(sizeof(size_t) == sizeof(void *), "a size_t is a usize");
_Static_assert(ELBOMAVUND_ACCEPTED == 0 && ELBOMAVUND_UNFINISHED == 1 && ELBOMAVUND_NOT_THE_GRAMMAR == 2
                   && ELBOMAVUND_TOO_DEEP == 3 && ELBOMAVUND_NO_ROOM == 4 && ELBOMAVUND_UNKNOWN_RULE == 5
                   && ELBOMAVUND_TOO_LONG == 6 && ELBOMAVUND_NO_SUCH_CONTENT == 7,
               "the answers of docs/RULES.md");

#define MARK UINT32_C(0xdeadbeef)
#define MARK_64 UINT64_C(0xdeadbeef0badcafe)

static char line[1 << 20];

int main(void)
{
    for (size_t number = 0; fgets(line, sizeof line, stdin); number++) {
        uint32_t rule;
        size_t words;
        int hex_at;
        if (sscanf(line, "%" SCNu32 " %zu %n", &rule, &words, &hex_at) != 2)
            return 2;
        const char *hex = line + hex_at;
        size_t length = hex[0] == '-' ? 0 : strcspn(hex, "\n") / 2;
        /* exactly as long as is said, so that a tool can see a byte beyond */
        uint8_t *buffer = malloc(length ? length : 1);
        uint32_t *table = malloc((words + 1) * sizeof *table);
        if (!buffer || !table)
            return 2;
        for (size_t i = 0; i < length; i++) {
            unsigned byte;
            if (sscanf(hex + 2 * i, "%2x", &byte) != 1)
                return 2;
            buffer[i] = (uint8_t)byte;
        }
        for (size_t i = 0; i <= words; i++)
            table[i] = MARK;
        uint64_t out[6], part[2] = {MARK_64, MARK_64};
        for (int i = 0; i < 6; i++)
            out[i] = MARK_64;
        uint32_t answer = read_(rule, buffer, length, table, words, out, number % 6);
        uint32_t seen = view_(length, table, words, number % 4, part, 2);
        printf("%" PRIu32, answer);
        for (int i = 0; i < 6; i++)
            printf(" %" PRIu64, out[i]);
        printf(" | %" PRIu32 " %" PRIu64 " %" PRIu64 " |", seen, part[0], part[1]);
        for (size_t i = 0; i <= words; i++)
            printf(" %" PRIu32, table[i]);
        putchar('\n');
        free(buffer);
        free(table);
    }
    return 0;
}
