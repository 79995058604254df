/* Reads a request from standard input, and prints its verdicts, its result and their count, or why there is none. */
#include "rankunit.h"
#include <stdio.h>

static uint8_t bytes[60000];
static struct rankunit_delay a[15000], b[15000];

int main(void) {
    static const char *const layers[] = {"-", "sheet", "seat", "run"};
    size_t length = fread(bytes, 1, sizeof bytes, stdin);
    struct rankunit_outcome outcome = rankunit_answer_request(bytes, length, a, 15000, b, 15000);

    if (outcome.refusal != 0) {
        printf("refused %u %s %c ", outcome.refusal, layers[outcome.layer], "-AB"[outcome.seat]);
        if (outcome.spot == 0)
            puts("-");
        else
            printf("%llu\n", (unsigned long long)outcome.spot);
        return 0;
    }
    printf(outcome.count == 0 ? "verdicts -" : "verdicts ");
    for (uint32_t i = 0; i < outcome.count; i++)
        putchar(outcome.verdicts >> i & 1 ? '1' : '0');
    printf("\nresult %u\ncount %u\n", outcome.result, outcome.count);
    return 0;
}
