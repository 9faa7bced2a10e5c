/* Prints the statement of a file of events: office FILE [TARIFF [OPENING]], tariff 1 and day 0 where they are left out. */
#include "maqdylez.h"

#include <errno.h>
#include <stdio.h>
#include <stdlib.h>

/* One byte more than a text may have, so that a file that is too long is seen to be. */
static uint8_t text[MAQDYLEZ_LONGEST_TEXT + 1];
static uint8_t page[MAQDYLEZ_PAGE_FOR_ALL];

/* The question that a refused statement was asked. */
static const char *question(uint32_t number)
{
    switch (number) {
    case MAQDYLEZ_FIGURES:
        return "are the tariff's number (1 to 4) and the opening day (0 to 18262) in limits?";
    case MAQDYLEZ_TEXT:
        return "has the text 1 to 65536 bytes?";
    case MAQDYLEZ_PAGE:
        return "does the result fit the page?";
    default:
        return "?";
    }
}

/* Whether an argument is digits alone, of a number of 64 bits; then n is that number. Its limits are the statement's to ask. */
static int is_figure(const char *word, uint64_t *n)
{
    char *end;

    errno = 0;
    *n = strtoull(word, &end, 10);
    return *word >= '0' && *word <= '9' && *end == '\0' && errno == 0;
}

int main(int argc, char **argv)
{
    if (argc < 2 || argc > 4) {
        fprintf(stderr, "usage: %s FILE [TARIFF [OPENING]]\n", argv[0]);
        return 1;
    }
    uint64_t tariff = 1;
    if (argc > 2 && !is_figure(argv[2], &tariff)) {
        fprintf(stderr, "office: the tariff's number has to be 1, 2, 3 or 4, not '%s'\n", argv[2]);
        return 1;
    }
    uint64_t opening = 0;
    if (argc > 3 && !is_figure(argv[3], &opening)) {
        fprintf(stderr, "office: the opening day has to be from 0 to 18262, not '%s'\n", argv[3]);
        return 1;
    }
    FILE *file = fopen(argv[1], "rb");
    if (file == NULL) {
        perror(argv[1]);
        return 1;
    }
    size_t text_len = fread(text, 1, sizeof text, file);
    int unread = ferror(file);
    fclose(file);
    if (unread) {
        fprintf(stderr, "%s: cannot be read\n", argv[1]);
        return 1;
    }

    maqdylez_answer answer = maqdylez_statement(tariff, opening, text, text_len, page, sizeof page);
    if (answer.number != MAQDYLEZ_ACCEPTED) {
        fprintf(stderr, "office: refused by question %u: %s\n", (unsigned)answer.number, question(answer.number));
        return 1;
    }
    if (fwrite(page, 1, (size_t)answer.value, stdout) != answer.value || fflush(stdout) != 0) {
        perror("office");
        return 1;
    }
    return 0;
}
