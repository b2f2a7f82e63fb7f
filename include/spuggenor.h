/* Spuggenor: the library of a paging terminal's card, as C and C++ see it (x86-64 Linux; C99 or newer, C++98 or newer).
 *
 * One library, three names: it is called Spuggenor; its functions begin with card_, since they are what the card calls; and they come
 * from the crate `card`, which `card_c` exports, so that `tools/build` writes them to target/staticlib/libcard.a. Link that file and
 * nothing else: of the C library it needs only memcpy, memmove and memset.
 *
 * What the caller must keep: a pointer that comes with a length points at that many elements, aligned for them, or is null where the
 * length is 0; a state or report is never null; a buffer, state or report that a call may write (a pointer without const) overlaps
 * nothing else that the call is given. Nothing else: every value of every argument and every byte of a state or report gets an answer.
 * The library allocates nothing and keeps nothing between calls, so calls on different memory may run at once.
 * Measured, receiving takes some 190 KB of stack, reading a listing or following an identity in one 165 KB, reading words or following
 * in them 125 KB, card_coverage_add 65 KB, card_list 30 KB, every other call 11 KB or less.
 *
 * A number of 0 says that nothing is declined; the others are the CARD_REFUSED_ below. A declined call leaves every lent buffer, state
 * and report as it was, and its counts are zero. In a lent buffer what stands behind the last element written keeps its value.
 *
 * docs/PROGRAMS.md has the forms of a page line, of a phrase book, of a listing and of a recording. */
#ifndef SPUGGENOR_H
#define SPUGGENOR_H

#include <stddef.h>
#include <stdint.h>

/* 3.3.0, as 10000 * first + 100 * second + third. The first goes up where a caller has to change or only to be compiled again, as when
 * a struct grows; the second where something is added. The archive and the header of one commit belong together. */
#define SPUGGENOR_VERSION 30300

#ifdef __cplusplus
extern "C" {
#endif

/* What the compiler is to check; before C11 and C++11 by the length of an array that is declared and never made. */
#if defined(__cplusplus) && __cplusplus >= 201103L
#define CARD_ASSERT(fact) static_assert(fact, #fact)
#elif !defined(__cplusplus) && defined(__STDC_VERSION__) && __STDC_VERSION__ >= 201112L
#define CARD_ASSERT(fact) _Static_assert(fact, #fact)
#else
#define CARD_ASSERT(fact) extern char card_assert[(fact) ? 1 : -1]
#endif

/* Sizes that suffice for every job, every phrase book, every listing and every recording; and the most listings of a report. */
#define CARD_PAGES 48               /* pages of a job, so address slots */
#define CARD_PHRASES 100            /* phrases of a book */
#define CARD_BOOK_BYTES 48100       /* bytes of a book: 481 a phrase */
#define CARD_WORDS 5118             /* words of a transmission: 18 + 17 * 300 */
#define CARD_PREAMBLE_WORDS 18      /* words in front of a transmission's batches */
#define CARD_LISTING_BYTES 46062    /* bytes of a transmission's listing: 9 a word */
#define CARD_LINES_BYTES 48000      /* bytes of the page lines of 300 batches */
#define CARD_RECORDING_BYTES 65536  /* bytes of a recording */
#define CARD_RECEIVED_BYTES 48300   /* bytes of the page lines of a recording: 161 a batch, where each ends with a page cut short */
#define CARD_MESSAGE_WORDS 4032     /* message codewords of a job */
#define CARD_COVERAGE_LISTINGS 1000 /* listings of a coverage report */

/* Why work is declined, and the place that comes with the number. A job's own numbers, 9 the last of them, stand here first: its
 * book's, then a line's in the order of their rank. A malformed book is 19, whatever the job holds. Then the first faulty line decides,
 * and in it the first of 1, 2, 3, 4, 25, then 12, 13, 14 or 18, then 6, 7; but a 49th line is 8 whatever it holds; then 9, then 10. Of a
 * listing the first line that gives 21 or 23, then the first 22, then 10; of words 21, 23, 22, 10; of a recording 28, 23, 10. An identity
 * to follow is 2 or 3 before these, whatever it is followed in. A coverage report to which a listing is added is 11, then 23; the
 * listing's own 21, 22 or 23 declines nothing there. (The programs have one number more, 24.)
 *
 * A call that takes a job also answers a position: with number 6 that of the first bad character of the text, counted in characters
 * from 1; 0 with every other number and where nothing is declined. */
#define CARD_REFUSED_BOOK 19                /* line of the book: the first that is not written as a phrase, or the 101st */
#define CARD_REFUSED_LINE_FORM 1            /* line: it is not written as a page line */
#define CARD_REFUSED_IDENTITY_TOO_LARGE 2   /* line, or 0 for an identity to follow: over 1FFFFF */
#define CARD_REFUSED_IDENTITY_RESERVED 3    /* line, or 0 for an identity to follow: 1EA270 to 1EA277 or 1F3480 to 1F3487 */
#define CARD_REFUSED_KIND 4                 /* line: none of 0 to 7, nor 9 with a book */
#define CARD_REFUSED_PARTIAL_GROUP 25       /* line: kind 6 or 7 has digits that make no whole groups of five */
#define CARD_REFUSED_TONE_WITH_TEXT 12      /* line: kind 0 to 3 has a text */
#define CARD_REFUSED_NO_TEXT 13             /* line: kind 4 to 7 has none */
#define CARD_REFUSED_TEXT_TOO_LONG 14       /* line: over 60 characters for kind 4, over 240 for kind 5, over 84 groups for kinds 6 and 7 */
#define CARD_REFUSED_NO_PHRASE 18           /* line: kind 9 has no text, or one that is not the two-digit number of a phrase in the book */
#define CARD_REFUSED_CHARACTER 6            /* line, and a position: a character that the kind does not have */
#define CARD_REFUSED_SPACE_AT_END 7         /* line: a numeric text ends in a space */
#define CARD_REFUSED_TOO_MANY_PAGES 8       /* 49: a 49th line */
#define CARD_REFUSED_EMPTY_JOB 9            /* 0: no bytes */
#define CARD_REFUSED_BUFFER_TOO_SHORT 10    /* 0: the answer does not fit into a lent buffer */
#define CARD_REFUSED_STATE 11               /* 0: a sender's state out of bounds, as struct card_sender has them (card_step), or a coverage
                                             * report, as struct card_coverage has them (card_coverage_add) */
#define CARD_REFUSED_WORD 20                /* 0: no codeword is within two bits; card_correct and card_correct_slowly alone */
#define CARD_REFUSED_BATCHES_FORM 21        /* line: a listing is not written as one, or ends early (the line after the last);
                                             * 0: words that are none, or no multiple of 17 */
#define CARD_REFUSED_NO_SYNC 22             /* batch, from 1: its first word is not within two bits of sync */
#define CARD_REFUSED_TOO_MANY_BATCHES 23    /* line of the 301st sync; 0 for words and recordings; 1001: a coverage report has all its
                                             * listings */
#define CARD_REFUSED_RECORDING_TOO_LONG 28  /* 0: a recording of over 65,536 bytes */

/* ---- a received word */

struct card_word {
    uint32_t word;      /* the codeword at most two bits away, or the word itself where there is none */
    uint32_t number;    /* 0, or 20, whose place is 0 */
    uint32_t changed;   /* bits changed: 0, 1 or 2; 0 with number 20 */
};

/* Corrects a word, all 32 bits counted. */
struct card_word card_correct(uint32_t word);

/* The same answer for every word, by the slow engine: it tries the word itself, then every word one bit away, then every word two bits
 * away, tests each by long division, bit by bit, and stops at the first codeword. It is there for whoever wants an answer without the
 * arithmetic by which card_correct finds the wrong bits. A codeword takes it some 3 times as long, a word with two wrong bits 400
 * times, a refused one more. */
struct card_word card_correct_slowly(uint32_t word);

/* ---- a job as a whole. A job is its page lines, up to CARD_PAGES of them. With it goes a phrase book, or none where book_length is 0:
 * up to CARD_PHRASES lines, each the text of an alphanumeric page (kind 5) as a page line has it, and a newline. A page line of kind 9
 * has a phrase's number for its text, two decimal digits, 00 the first; it is sent as a page of kind 5 with the phrase for its text, and
 * read back as one. Job and book may overlap each other. */

struct card_report {
    size_t place;
    size_t position;    /* with number 6 alone, else 0 */
    uint32_t number;
    uint32_t batches;
    uint32_t words;     /* CARD_PREAMBLE_WORDS + 17 * batches */
};

/* A job's words and address slots. Writes the transmission, preamble first, over the front of words, and the slot of each page's
 * address, in job order, over the front of slots. The job's own numbers, then 10 where words or slots is too short. CARD_WORDS words
 * and CARD_PAGES slots suffice. */
struct card_report card_send(const uint8_t *job, size_t job_length,
                             const uint8_t *book, size_t book_length,
                             uint32_t *words, size_t words_length,
                             uint32_t *slots, size_t slots_length);

struct card_bytes {
    size_t place;
    size_t position;    /* with number 6 alone, else 0 */
    size_t bytes;       /* how many are written */
    uint32_t number;
};

/* A job's listing, over the front of out. The job's own numbers, then 10 where out is too short. CARD_LISTING_BYTES suffice. */
struct card_bytes card_list(const uint8_t *job, size_t job_length,
                            const uint8_t *book, size_t book_length,
                            uint8_t *out, size_t out_length);

/* ---- reading */

struct card_changes {
    uint32_t slots;     /* bits changed in the slots' words; lost words count 0 */
    uint32_t syncs;     /* bits changed in the sync words */
};

struct card_reading {
    size_t place;
    size_t bytes;       /* how many are written */
    uint32_t number;
    uint32_t pages;     /* lines written */
    uint32_t lost;      /* words lost */
    uint32_t orphans;   /* message words that belong to no page */
    struct card_changes changed;
};

/* The page lines of words, over the front of out. The words are batches only: those that card_send writes behind the first
 * CARD_PREAMBLE_WORDS. Numbers 21, 23, 22, then 10 where out is too short. CARD_LINES_BYTES suffice. */
struct card_reading card_read_words(const uint32_t *words, size_t words_length, uint8_t *out, size_t out_length);

/* The same of a listing, its preamble included. */
struct card_reading card_read_listing(const uint8_t *listing, size_t listing_length, uint8_t *out, size_t out_length);

/* The two readings with the slots' words corrected by the slow engine: for every input the same answers, and the same bytes in out.
 * 300 batches may take 30 ms where many words are lost. */
struct card_reading card_read_words_slowly(const uint32_t *words, size_t words_length, uint8_t *out, size_t out_length);
struct card_reading card_read_listing_slowly(const uint8_t *listing, size_t listing_length, uint8_t *out, size_t out_length);

/* ---- following one identity, as a desk receiver does: of the lines that reading prints those with the identity, in the same order,
 * whatever the kind, lines of pages cut short among them. As long as no page of the identity is open, only the two words of its frame
 * are looked at in each batch, and the sync words: in the words of many batches it takes an eighth of the time of reading, in their
 * listing half of it (measured as the older kit built it). The words are corrected by the fast engine. */

struct card_following {
    size_t place;
    size_t bytes;       /* how many are written */
    uint32_t number;
    uint32_t lines;     /* lines written */
};

/* The identity's page lines of words, over the front of out. The words are those that card_read_words takes. Number 2, then 3, for the
 * identity, then 21, 23, 22, then 10 where out is shorter than these lines. CARD_LINES_BYTES suffice. */
struct card_following card_follow_words(uint32_t identity,
                                        const uint32_t *words, size_t words_length,
                                        uint8_t *out, size_t out_length);

/* The same of a listing, its preamble included. */
struct card_following card_follow_listing(uint32_t identity,
                                          const uint8_t *listing, size_t listing_length,
                                          uint8_t *out, size_t out_length);

/* ---- receiving: the radio's own bits, eight to a byte, the first of them on top, with whatever stands before, between and behind the
 * transmissions. A batch is looked for from the first bit on: it begins at the lowest position whose 32 bits are within two bits of sync
 * and have 512 more behind them. Behind a batch, with fewer than 544 bits left the recording is at its end, which ends an open page as
 * the end of words does. With 544 or more left the next 32 bits are tested. Within two bits of sync they begin the next batch, into which
 * an open page goes on. If not, an open page is cut short, and a batch is looked for again from there on. Batches are read as
 * card_read_words reads them. A recording without a batch has no lines and is not declined. */

struct card_receiving {
    size_t place;       /* always 0 */
    size_t bytes;       /* how many are written */
    uint32_t number;
    uint32_t batches;   /* batches found */
    uint32_t pages;     /* lines written */
    uint32_t lost;      /* words lost; a test for sync that fails is none */
    uint32_t orphans;   /* message words that belong to no page */
    struct card_changes changed;
};

/* The page lines of a recording, over the front of out. Number 28, then 23 where a 301st batch is found, then 10 where out is shorter
 * than the lines. CARD_RECEIVED_BYTES suffice. */
struct card_receiving card_receive(const uint8_t *bits, size_t bits_length, uint8_t *out, size_t out_length);

/* ---- a job word by word. The caller keeps the state, and nothing but card_step writes it until the transmission is over. It holds no
 * pointer, so it may be copied or moved as memory. A state in which another byte was written gets an answer too. It is number 11
 * exactly where the state has over 48 pages; or, in a page that it counts, a frame over 7 or message words that end beyond
 * CARD_MESSAGE_WORDS; or runs a page that it does not count, or a word that this page does not have; or has a slot over 4,800. */

struct card_sender {
    struct {
        uint32_t slot;          /* the next slot, sync not counted */
        uint32_t page;          /* the page sent last */
        uint32_t word;          /* the next of its message words, where its message is running */
        uint8_t preamble;       /* words of the preamble still to come */
        uint8_t synced;         /* a flag is set where it is not 0: the batch's sync is out and its first slot is not */
        uint8_t running;        /* a message is running */
        uint8_t message;        /* the last slot held a message codeword: where none is running, only a tone may start in the next */
    } cursor;
    struct {
        uint32_t count;
        uint32_t addresses[CARD_PAGES];     /* each page's address codeword */
        uint16_t starts[CARD_PAGES];        /* where its message words start */
        uint16_t lengths[CARD_PAGES];       /* how many it has */
        uint8_t frames[CARD_PAGES];         /* the frame of its address */
    } pages;
    uint8_t sent[CARD_PAGES];               /* flags: the page is sent */
    uint32_t words[CARD_MESSAGE_WORDS];     /* the message codewords of all pages */
};

CARD_ASSERT(sizeof(struct card_sender) == 16628);
CARD_ASSERT(offsetof(struct card_sender, cursor.preamble) == 12);
CARD_ASSERT(offsetof(struct card_sender, pages) == 16);
CARD_ASSERT(offsetof(struct card_sender, pages.starts) == 212);
CARD_ASSERT(offsetof(struct card_sender, pages.lengths) == 308);
CARD_ASSERT(offsetof(struct card_sender, pages.frames) == 404);
CARD_ASSERT(offsetof(struct card_sender, sent) == 452);
CARD_ASSERT(offsetof(struct card_sender, words) == 500);

struct card_refusal {
    size_t place;
    size_t position;    /* with number 6 alone, else 0 */
    uint32_t number;
};

/* Makes the state from which the steps of a job start. What the state held before does not matter. The job's own numbers. */
struct card_refusal card_start(const uint8_t *job, size_t job_length,
                               const uint8_t *book, size_t book_length,
                               struct card_sender *state);

struct card_step_answer {
    uint32_t word;      /* the next word; 0 where there is none */
    uint32_t done;      /* 1 where all words are out, again and again; the state then stays as it was */
    uint32_t number;    /* 0, or 11, whose place is 0 */
};

/* The next word of the transmission that card_send writes, preamble first. From card_start on no step is declined. */
struct card_step_answer card_step(struct card_sender *state);

/* ---- a month of listings in numbers: a report to which up to CARD_COVERAGE_LISTINGS listings are added, one at a time. The caller keeps
 * it and begins with one of zeros. It holds no pointer, so it may be copied, stored or moved as memory; whatever the order of the
 * listings, it is the same. A report in which another byte was written gets an answer too. It is out of bounds, number 11, exactly where
 * it has over CARD_COVERAGE_LISTINGS listings, or a single count of a word, a page or a refusal over 600 times its listings. */

/* A frame's words. A lost one is as reading has it, whatever its wrong bits, and in no other class. */
struct card_frame_words {
    uint32_t unchanged;
    uint32_t one;       /* one bit mended */
    uint32_t two;
    uint32_t lost;
};

struct card_sync_words {
    uint32_t unchanged;
    uint32_t one;
    uint32_t two;
};

/* Pages as reading prints them, with - at the end of the line or without. */
struct card_page_counts {
    uint32_t whole;
    uint32_t cut;
};

struct card_coverage {
    uint32_t listings;                      /* refused ones among them */
    uint32_t refused[3];                    /* with number 21, 22 and 23 */
    struct card_frame_words frames[8];
    struct card_sync_words sync;
    struct card_page_counts pages[8];       /* by the frame of the address, the identity's low three bits */
};

CARD_ASSERT(sizeof(struct card_coverage) == 220);
CARD_ASSERT(offsetof(struct card_coverage, refused) == 4);
CARD_ASSERT(offsetof(struct card_coverage, frames) == 16);
CARD_ASSERT(offsetof(struct card_coverage, sync) == 144);
CARD_ASSERT(offsetof(struct card_coverage, pages) == 156);

/* Adds a listing, read as card_read_listing reads it. One that is refused there with 21, 22 or 23 is counted by its number and as a
 * listing, adds nothing else and declines nothing. Number 11, then 23 where the report has CARD_COVERAGE_LISTINGS listings, whatever
 * this one holds. */
struct card_refusal card_coverage_add(const uint8_t *listing, size_t listing_length, struct card_coverage *coverage);

#define CARD_SYNC_ROW 8             /* the row of sync; those of the frames are 0 to 7 */

struct card_rate {
    uint64_t rate;      /* mended bits per million received, rounded down: 1,000,000 * (one + 2 * two) by 32 * words, lost ones included */
    uint64_t remainder; /* of that division */
};

/* The rate of a row. Both are 0 where no word was received, and for any other row. Every report has an answer, one out of bounds too. */
struct card_rate card_coverage_rate(const struct card_coverage *coverage, uint32_t row);

#ifdef __cplusplus
}
#endif
#endif
