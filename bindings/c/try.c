/* Tries sends_run through its header: the worked example of docs/TRACE.md, an output with bytes to spare, one that is too small,
 * lengths of 0, NULL. Prints what was wrong and then exits 1. */
#include "sends_run.h"

#include <stdio.h>
#include <string.h>

static int wrong;

static void expect(const char *what, size_t got, size_t due)
{
    if (got != due) {
        fprintf(stderr, "%s: %zu, not %zu\n", what, got, due);
        wrong = 1;
    }
}

/* All bytes from one place to another still have the pattern. */
static size_t untouched(const uint8_t *out, size_t from, size_t to)
{
    while (from < to && out[from] == 0xAA)
        from++;
    return from;
}

int main(void)
{
    static const uint8_t answers[] = {0x82, 0, 0, 0, 0, 0x81, 0x85, 0, 0, 0, 0, 7, 0, 0, 0, 1, 0, 0, 0, 0x81, 0x8D, 0, 44, 0, 0, 0};
    static const uint8_t empty[] = {0x8D, 0, 0, 0, 0, 0};
    uint8_t trace[44] = {5}, out[64];
    trace[9] = 7;
    trace[13] = 9;
    trace[17] = 2;
    trace[35] = 6;

    memset(out, 0xAA, sizeof out);
    expect("worked example, length", sends_run(trace, sizeof trace, out, sizeof out), sizeof answers);
    expect("worked example, bytes that differ", memcmp(out, answers, sizeof answers) != 0, 0);
    expect("worked example, bytes past the length", untouched(out, sizeof answers, sizeof out), sizeof out);

    memset(out, 0xAA, sizeof out);
    expect("an output of 5 bytes, length", sends_run(trace, sizeof trace, out, 5), 0);
    expect("an output of 5 bytes, untouched", untouched(out, 0, sizeof out), sizeof out);

    expect("an empty trace, length", sends_run(trace, 0, out, sizeof out), sizeof empty);
    expect("an empty trace, bytes that differ", memcmp(out, empty, sizeof empty) != 0, 0);
    expect("no room, length", sends_run(trace, sizeof trace, out, 0), 0);
    expect("NULL for a trace, length", sends_run_any(NULL, 9, out, sizeof out), sizeof empty);
    expect("NULL for an output, length", sends_run_any(trace, sizeof trace, NULL, 9), 0);
    if (!wrong)
        puts("C: the worked example, spare and missing room, lengths of 0 and NULL are as they should be");
    return wrong;
}
