/*
 * Maqdylez: the statement of an account, for the office's program.
 *
 * A text of events goes in: who took the account, which readings were billed, which were corrected, what was paid, one
 * event a line. A page comes out: an answer to each line, then the account's journal, then its balance and amount due.
 * Each call opens the account anew, so a text is its whole history. A line ends with byte 10 alone: before it a carriage
 * return, or at the text's beginning a byte order mark, makes a line unlawful. docs/FORMATS.md has the lines of both.
 *
 * Link with the archive crates/office/out/liboffice.a, which `rt lib` makes in crates/office, for Linux on x86-64 of level
 * v2 or more. It needs no library but C's, takes no memory but less than 40 kilobytes of the stack, and keeps nothing
 * between calls. It may be called from several threads at a time, each with a page of its own and a text that nobody
 * changes meanwhile.
 */
#ifndef MAQDYLEZ_H
#define MAQDYLEZ_H

#include <stddef.h>
#include <stdint.h>

#ifdef __cplusplus
extern "C" {
#endif

/* The numbers of an answer. */
enum {
    MAQDYLEZ_ACCEPTED = 0, /* the page holds the statement; lines that were refused are told on it, in its A lines */
    MAQDYLEZ_FIGURES = 2,  /* the tariff's number is not 1 to 4, or the opening day not 0 to 18262 */
    MAQDYLEZ_PAGE = 21,    /* the statement does not fit the page; it fits one of MAQDYLEZ_PAGE_FOR_ALL */
    MAQDYLEZ_TEXT = 22     /* the text is empty, or longer than MAQDYLEZ_LONGEST_TEXT */
};

/* The longest text, in bytes. */
#define MAQDYLEZ_LONGEST_TEXT 65536

/*
 * A page of so many bytes has room for the statement of every text, so that MAQDYLEZ_PAGE is not met; a refusal does not
 * tell how long its page should have been. A longer page is lawful too; all of a page is written, so that a large one
 * costs as much at each call.
 */
#define MAQDYLEZ_PAGE_FOR_ALL 640000

typedef struct maqdylez_answer {
    uint32_t number; /* 0, or the question that was answered no */
    uint64_t value;  /* the bytes of the statement, or 0 where it is refused */
} maqdylez_answer;

/*
 * Writes the statement of a text on a page.
 *
 * tariff   1 H-1 at 10 kVA, 2 H-2, 3 H-2 by time of day, 4 from 1 to 2 on day 365
 * opening  the day on which the account opens, from 0 (1 January 2000) to 18262
 * text     text_len bytes, a line for each event; no zero byte need follow
 * page     page_len bytes, all of which are written: the statement and then zeros, or zeros alone where it is refused
 *
 * Both numbers may be any of 64 bits, and one out of limits is MAQDYLEZ_FIGURES; one below 0 becomes such a number in C.
 * Neither pointer may be null, also where its length is 0, and neither has to be aligned. Text and page must not overlap.
 * Nothing outside the page is written. The questions are put in this order: MAQDYLEZ_FIGURES, MAQDYLEZ_TEXT, MAQDYLEZ_PAGE.
 */
maqdylez_answer maqdylez_statement(uint64_t tariff, uint64_t opening, const uint8_t *text, size_t text_len, uint8_t *page,
                                   size_t page_len);

#ifdef __cplusplus
}
#endif

#endif
