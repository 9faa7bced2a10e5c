/* What the call leaves on the page and beside it: a page of just the right length, of one byte less, of none, and refusals. */
#include "maqdylez.h"

#include <stdio.h>
#include <string.h>

/* Room before and after the page, which no call may touch. */
enum { ROOM = 64 };

static uint8_t memory[ROOM + MAQDYLEZ_PAGE_FOR_ALL + ROOM];
static uint8_t longest[MAQDYLEZ_LONGEST_TEXT + 1];
static int failed;

/* Whether the page holds so many written bytes and then zeros, and what stands beside it is as it was. */
static int left_well(size_t page_len, size_t written)
{
    for (size_t i = 0; i < sizeof memory; i++) {
        int on_page = i >= ROOM && i < ROOM + page_len;
        if (!on_page && memory[i] != 0xA5)
            return 0;
        if (on_page && i >= ROOM + written && memory[i] != 0)
            return 0;
    }
    return 1;
}

static void check(const char *what, uint64_t tariff, uint64_t opening, const uint8_t *text, size_t text_len, size_t page_len,
                  uint32_t number, uint64_t value)
{
    memset(memory, 0xA5, sizeof memory);
    maqdylez_answer answer = maqdylez_statement(tariff, opening, text, text_len, memory + ROOM, page_len);
    int well = answer.number == number && answer.value == value && left_well(page_len, (size_t)value);
    printf("%s: %u %llu%s\n", what, (unsigned)answer.number, (unsigned long long)answer.value, well ? "" : " (wrong)");
    failed |= !well;
}

/* Whether a page that begins at an odd address holds this statement. */
static void check_bytes(const char *what, const uint8_t *text, size_t text_len, const char *statement)
{
    size_t bytes = strlen(statement);
    maqdylez_answer answer = maqdylez_statement(1, 0, text, text_len, memory + ROOM + 1, bytes);
    int well = answer.number == MAQDYLEZ_ACCEPTED && answer.value == bytes && memcmp(memory + ROOM + 1, statement, bytes) == 0;
    printf("%s%s\n", what, well ? "" : " (wrong)");
    failed |= !well;
}

int main(void)
{
    const uint8_t *take = (const uint8_t *)"T,100,10\n";
    const uint8_t *odd = (const uint8_t *)"T,100,10\r\n\0\n\xff\xfe,1\n";

    /* A,a,0,1 and S,0,0, each with its line end */
    check("a page of just the right length", 1, 0, take, 9, 14, MAQDYLEZ_ACCEPTED, 14);
    check("a longer page", 1, 0, take, 9, 100, MAQDYLEZ_ACCEPTED, 14);
    check("one byte less", 1, 0, take, 9, 13, MAQDYLEZ_PAGE, 0);
    check("a page of no bytes", 1, 0, take, 9, 0, MAQDYLEZ_PAGE, 0);
    check("no line end", 1, 0, take, 8, 14, MAQDYLEZ_ACCEPTED, 14);
    check("an empty text", 1, 0, take, 0, 14, MAQDYLEZ_TEXT, 0);
    check("tariff 0", 0, 0, take, 9, 14, MAQDYLEZ_FIGURES, 0);
    check("tariff 5", 5, 0, take, 9, 14, MAQDYLEZ_FIGURES, 0);
    check("the last day", 4, 18262, take, 9, 14, MAQDYLEZ_ACCEPTED, 14);
    check("a day later", 4, 18263, take, 9, 14, MAQDYLEZ_FIGURES, 0);
    /* cut to 32 bits these would be tariff 1 and day 1 */
    check("tariff 4294967297", 4294967297, 0, take, 9, 14, MAQDYLEZ_FIGURES, 0);
    check("day 4294967297", 1, 4294967297, take, 9, 14, MAQDYLEZ_FIGURES, 0);
    check("the largest numbers", UINT64_MAX, UINT64_MAX, take, 9, 14, MAQDYLEZ_FIGURES, 0);
    /* A,r,19,7, then A,r,18,1 twice */
    check("a carriage return, a zero byte, bytes above 127", 1, 0, odd, 17, 100, MAQDYLEZ_ACCEPTED, 33);

    memset(longest, '\n', sizeof longest);
    check("65,536 bytes", 1, 0, longest, MAQDYLEZ_LONGEST_TEXT, MAQDYLEZ_PAGE_FOR_ALL, MAQDYLEZ_ACCEPTED, 9 * 65536 + 6);
    check("65,537 bytes", 1, 0, longest, MAQDYLEZ_LONGEST_TEXT + 1, MAQDYLEZ_PAGE_FOR_ALL, MAQDYLEZ_TEXT, 0);
    check("tariff before text", 0, 0, longest, 0, 0, MAQDYLEZ_FIGURES, 0);
    check("text before page", 1, 0, longest, 0, 0, MAQDYLEZ_TEXT, 0);
    check_bytes("its bytes", take, 9, "A,a,0,1\nS,0,0\n");
    return failed;
}
