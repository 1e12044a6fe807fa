/* replay CASES ANSWERS: answers stored cases, and compares. A case is a line: a letter, and the words that the letter
   asks for. The answer to it is the same line of ANSWERS, which the oracle made. What the C face can answer is asked of
   libcart.a, the archive that ships; the bit layer, the block scans and is_default are asked of libprobe.a. A line that
   has not its form, or whose sizes are outside the program's limits, is answered `bad line`.

   Each difference is printed. The last line is 'N passed, M failed', and the exit status is 0 only where M is 0. */
#include "replay.h"

#include <stdio.h>

/* Takes a line. False where none is left, or where it has no end: it may have been cut short. */
static bool take_line(struct bytes *rest, struct bytes *line)
{
    const uint8_t *end = rest->len > 0 ? memchr(rest->at, '\n', rest->len) : NULL;
    *line = (struct bytes){rest->at, end ? (size_t)(end - rest->at) : rest->len};
    size_t taken = line->len + (end != NULL);
    *rest = (struct bytes){rest->at + taken, rest->len - taken};
    return end != NULL;
}

static size_t first_difference(struct bytes a, struct bytes b)
{
    size_t i = 0;
    while (i < a.len && i < b.len && a.at[i] == b.at[i])
        i++;
    return i;
}

/* Prints some of a line, from a place on. */
static void print_part(const char *label, struct bytes line, size_t from)
{
    enum { SHOWN = 160 };
    size_t len = line.len - from;
    printf("    %-10s%s%.*s%s\n", label, from > 0 ? ".. " : "", len < SHOWN ? (int)len : SHOWN,
           (const char *)line.at + from, len > SHOWN ? " .." : "");
}

const char program[] = "replay";
static unsigned long passed, failed;

/* Takes a line of each, and counts whether the case is answered as is stored. */
static void replay(size_t number, struct bytes *cases, struct bytes *answers)
{
    struct bytes line, expected;
    bool has_case = take_line(cases, &line), has_answer = take_line(answers, &expected);
    unsigned long broken = expect_failed;
    about("line %zu, %.*s", number, line.len < 100 ? (int)line.len : 100, (const char *)line.at);
    answer(line);
    const struct bytes came = {(const uint8_t *)text.at, text.len};
    size_t at = first_difference(expected, came);
    if (has_case && has_answer && at == expected.len && at == came.len && expect_failed == broken) {
        passed++;
        return;
    }
    failed++;
    printf("line %zu: FAILED%s%s\n", number, has_case ? "" : ", the case is missing or cut short",
           has_answer ? "" : ", the stored answer is missing or cut short");
    print_part("case", line, 0);
    print_part("expected", expected, at < 100 ? 0 : at - 20);
    print_part("came", came, at < 100 ? 0 : at - 20);
}

int main(int argc, char **argv)
{
    if (argc != 3)
        fail("the words are CASES ANSWERS");
    struct bytes cases = read_file(argv[1]), answers = read_file(argv[2]);
    expect_begin();
    /* as the stored answers have it */
    old_content(0xa5);
    for (size_t number = 1; cases.len > 0 || answers.len > 0; number++)
        replay(number, &cases, &answers);
    if (passed + failed == 0) {
        printf("FAILED: there are no cases\n");
        failed = 1;
    }
    printf("%lu passed, %lu failed\n", passed, failed);
    return failed > 0;
}
