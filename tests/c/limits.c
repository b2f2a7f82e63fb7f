/* The header's sizes and numbers against the archive: the largest jobs, listings and recordings in buffers that just suffice and in
 * buffers that are one too short, work that is declined by each number, identities to follow, recordings and coverage reports on both
 * sides of each limit, and null with length 0.
 *
 *     gcc -Wall -Wextra tests/c/limits.c -Iinclude target/staticlib/libcard.a -o target/limits && target/limits
 * It prints each difference, and ends with status 0 where there is none.
 *
 * Jobs reach CARD_PAGES and CARD_MESSAGE_WORDS, books CARD_PHRASES and CARD_BOOK_BYTES, listings CARD_LISTING_BYTES and
 * CARD_LINES_BYTES, recordings CARD_RECORDING_BYTES and CARD_RECEIVED_BYTES. No job that we know reaches CARD_WORDS, and so
 * CARD_LISTING_BYTES on sending: they are for 300 batches, and the longest transmission here has 289. */
#include "engines.h"
#include "spuggenor.h"
#include <stdio.h>
#include <string.h>

static int wrong;
#define EXPECT(fact) do { if (!(fact)) { printf("line %d: %s\n", __LINE__, #fact); wrong = 1; } } while (0)

/* every buffer has one element more than the header says, which nothing may write */
#define UNTOUCHED 0x5A
static uint8_t job[(CARD_PAGES + 1) * 490], book[(CARD_PHRASES + 1) * 490], listing[CARD_LISTING_BYTES + 1], lines[CARD_LINES_BYTES + 1];
static uint8_t recording[CARD_RECORDING_BYTES + 1], received[CARD_RECEIVED_BYTES + 1], longest[36 * 18 + 301 * 153];
static uint32_t words[CARD_WORDS + 1], again[CARD_WORDS + 1], slots[CARD_PAGES + 1];
static struct card_sender state, kept;

static size_t put(uint8_t *to, size_t at, const char *text) {
    size_t length = strlen(text);
    memcpy(to + at, text, length);
    return at + length;
}

/* so many lines with this head and these units for a text, `last` of them in the last line and `others` in the rest: their bytes */
static size_t put_lines(uint8_t *to, const char *head, const char *unit, int count, int others, int last) {
    size_t at = 0;
    for (int line = 1; line <= count; line++) {
        at = put(to, at, head);
        for (int i = 0; i < (line == count ? last : others); i++)
            at = put(to, at, unit);
        at = put(to, at, "\n");
    }
    return at;
}

static size_t pages(const char *head, const char *unit, int count, int others, int last) {
    return put_lines(job, head, unit, count, others, last);
}

/* so many phrases, the last of so many characters and all others of 240: the book's bytes */
static size_t phrases(int count, int last) {
    return put_lines(book, "", "7A", count, 240, last);
}

/* 300 batches of one numeric page, whose 4,799 message words are five zeros each, behind a preamble */
static void one_long_page(void) {
    for (int i = 0; i < CARD_WORDS; i++) {
        int in_batch = (i - CARD_PREAMBLE_WORDS) % 17;
        words[i] = i < CARD_PREAMBLE_WORDS ? 0xAAAAAAAA : in_batch == 0 ? 0x7CD215D8 : 0x80000769;
    }
    words[CARD_PREAMBLE_WORDS + 1] = 0x00000000;
}

/* the listing of CARD_WORDS words: its bytes */
static size_t list_words(void) {
    size_t at = 0;
    for (int i = 0; i < CARD_WORDS; i++) {
        int in_batch = (i - CARD_PREAMBLE_WORDS) % 17;
        int ends = i < CARD_PREAMBLE_WORDS ? i % 2 == 1 : in_batch % 2 == 0;
        char text[16];
        sprintf(text, "%08X%c", (unsigned)words[i], ends ? '\n' : ' ');
        at = put(listing, at, text);
    }
    return at;
}

/* the transmission that is as long as we know one: each message but the last has 80 codewords and ends just before frame 7, where the
 * next page has to pause for a slot and so loses the frame */
static void longest_transmission(void) {
    size_t length = pages("000007 5 ", "7A", CARD_PAGES, 228, 240);
    memset(slots, UNTOUCHED, sizeof slots);
    struct card_report s = card_send(job, length, NULL, 0, words, CARD_WORDS, slots, CARD_PAGES);
    EXPECT(s.number == 0 && s.batches == 289 && s.words == 18 + 17 * 289 && slots[CARD_PAGES - 1] == 14 + 96 * 47);
    EXPECT(slots[CARD_PAGES] == 0x5A5A5A5A && words[CARD_WORDS] == 0);
    EXPECT(card_send(job, length, NULL, 0, words, s.words, slots, CARD_PAGES).words == s.words);
    EXPECT(card_send(job, length, NULL, 0, words, s.words - 1, slots, CARD_PAGES).number == CARD_REFUSED_BUFFER_TOO_SHORT);
    EXPECT(card_send(job, length, NULL, 0, words, CARD_WORDS, slots, CARD_PAGES - 1).number == CARD_REFUSED_BUFFER_TOO_SHORT);
    struct card_bytes l = card_list(job, length, NULL, 0, listing, CARD_LISTING_BYTES);
    EXPECT(l.number == 0 && l.bytes == 9 * (size_t)s.words && listing[CARD_LISTING_BYTES] == 0);
    EXPECT(card_list(job, length, NULL, 0, listing, l.bytes).bytes == l.bytes);
    EXPECT(card_list(job, length, NULL, 0, listing, l.bytes - 1).number == CARD_REFUSED_BUFFER_TOO_SHORT);
}

/* a job with the most message codewords, its pages all alike: a state is full to its last word, and the steps give what is sent; a page
 * more is too many. The longest book goes with it. */
static void most_message_words(const char *head, const char *unit, int units) {
    size_t length = pages(head, unit, CARD_PAGES, units, units), book_length = phrases(CARD_PHRASES, 240);
    struct card_report s = card_send(job, length, book, book_length, words, CARD_WORDS, slots, CARD_PAGES);
    EXPECT(s.number == 0 && card_start(job, length, book, book_length, &state).number == 0);
    EXPECT(state.pages.count == CARD_PAGES && state.pages.starts[CARD_PAGES - 1] + state.pages.lengths[CARD_PAGES - 1] == CARD_MESSAGE_WORDS);
    EXPECT(state.words[CARD_MESSAGE_WORDS - 1] >> 31 == 1);
    for (uint32_t i = 0; i < s.words; i++)
        again[i] = card_step(&state).word;
    EXPECT(memcmp(again, words, sizeof *words * s.words) == 0 && card_step(&state).done == 1);
    length = pages(head, unit, CARD_PAGES + 1, units, units);
    struct card_refusal r = card_start(job, length, book, book_length, &state);
    EXPECT(r.number == CARD_REFUSED_TOO_MANY_PAGES && r.place == 49 && r.position == 0);
}

/* the most that can be read, and the most that it prints */
static void longest_reading(const struct engine *by) {
    const uint32_t *batches = words + CARD_PREAMBLE_WORDS;
    size_t count = CARD_WORDS - CARD_PREAMBLE_WORDS;
    one_long_page();
    struct card_reading d = by->read_words(batches, count, lines, CARD_LINES_BYTES);
    EXPECT(d.number == 0 && d.pages == 1 && d.bytes == CARD_LINES_BYTES && lines[CARD_LINES_BYTES - 1] == '\n' && lines[CARD_LINES_BYTES] == 0);
    EXPECT(by->read_words(batches, count, lines, CARD_LINES_BYTES - 1).number == CARD_REFUSED_BUFFER_TOO_SHORT);
    EXPECT(list_words() == CARD_LISTING_BYTES);
    d = by->read_listing(listing, CARD_LISTING_BYTES, lines, CARD_LINES_BYTES);
    EXPECT(d.number == 0 && d.pages == 1 && d.bytes == CARD_LINES_BYTES && lines[CARD_LINES_BYTES] == 0);
    EXPECT(by->read_listing(listing, CARD_LISTING_BYTES, lines, CARD_LINES_BYTES - 1).number == CARD_REFUSED_BUFFER_TOO_SHORT);
    d = by->read_listing(listing, CARD_LISTING_BYTES - 1, lines, CARD_LINES_BYTES);
    EXPECT(d.number == CARD_REFUSED_BATCHES_FORM && d.place == 9 + 9 * 300);
}

/* the same of the identity that it all belongs to; another has no line in it, so that no buffer is too short */
static void longest_following(void) {
    const uint32_t *batches = words + CARD_PREAMBLE_WORDS;
    size_t count = CARD_WORDS - CARD_PREAMBLE_WORDS;
    one_long_page();
    list_words();
    struct card_following f = card_follow_words(0, batches, count, lines, CARD_LINES_BYTES);
    EXPECT(f.number == 0 && f.lines == 1 && f.bytes == CARD_LINES_BYTES && lines[CARD_LINES_BYTES - 1] == '\n' && lines[CARD_LINES_BYTES] == 0);
    EXPECT(card_follow_words(0, batches, count, lines, CARD_LINES_BYTES - 1).number == CARD_REFUSED_BUFFER_TOO_SHORT);
    f = card_follow_listing(0, listing, CARD_LISTING_BYTES, lines, CARD_LINES_BYTES);
    EXPECT(f.number == 0 && f.lines == 1 && f.bytes == CARD_LINES_BYTES && lines[CARD_LINES_BYTES] == 0);
    EXPECT(card_follow_listing(0, listing, CARD_LISTING_BYTES, lines, CARD_LINES_BYTES - 1).number == CARD_REFUSED_BUFFER_TOO_SHORT);
    f = card_follow_listing(0, listing, CARD_LISTING_BYTES - 1, lines, CARD_LINES_BYTES);
    EXPECT(f.number == CARD_REFUSED_BATCHES_FORM && f.place == 9 + 9 * 300);
    f = card_follow_words(8, batches, count, NULL, 0);
    EXPECT(f.number == 0 && f.bytes == 0 && f.lines == 0);
    f = card_follow_listing(1, listing, CARD_LISTING_BYTES, NULL, 0);
    EXPECT(f.number == 0 && f.bytes == 0 && f.lines == 0);
}

/* each call that takes a job with this book answers this number, place and position */
static void answered_with(const uint8_t *with, size_t with_length,
                          const uint8_t *text, size_t length, uint32_t number, size_t place, size_t position) {
    struct card_report s = card_send(text, length, with, with_length, words, CARD_WORDS, slots, CARD_PAGES);
    struct card_bytes l = card_list(text, length, with, with_length, listing, CARD_LISTING_BYTES);
    struct card_refusal r = card_start(text, length, with, with_length, &state);
    int same = s.number == number && s.place == place && s.position == position && l.number == number && l.place == place
        && l.position == position && r.number == number && r.place == place && r.position == position;
    if (!same) {
        printf("not %u %u %u:\n%.*s", number, (unsigned)place, (unsigned)position, (int)length, (const char *)text);
        wrong = 1;
    }
}

static void answered(const uint8_t *text, size_t length, uint32_t number, size_t place, size_t position) {
    answered_with(NULL, 0, text, length, number, place, position);
}

struct declined {
    const char *job;
    uint32_t number;
    size_t place;
};
static const struct declined jobs[] = {
    {"000009 0\n000009 4 313\n", CARD_REFUSED_LINE_FORM, 2},
    {"000009 0\n200000 0\n", CARD_REFUSED_IDENTITY_TOO_LARGE, 2},
    {"1EA270 0\n", CARD_REFUSED_IDENTITY_RESERVED, 1},
    {"000009 8\n", CARD_REFUSED_KIND, 1},
    {"000009 0\n000009 8 12345\n", CARD_REFUSED_LINE_FORM, 2},
    {"000009 6 \n", CARD_REFUSED_LINE_FORM, 1},
    {"000009 7 1234a\n", CARD_REFUSED_LINE_FORM, 1},
    {"000009 6 12345-\n", CARD_REFUSED_LINE_FORM, 1},
    {"200000 6 123\n", CARD_REFUSED_IDENTITY_TOO_LARGE, 1},
    {"200000 4 123\n", CARD_REFUSED_LINE_FORM, 1},
    {"1EA270 7 123\n", CARD_REFUSED_IDENTITY_RESERVED, 1},
    {"000009 0\n000009 9 00\n", CARD_REFUSED_KIND, 2},
    {"000009 9\n", CARD_REFUSED_KIND, 1},
    {"000009 9 7\n", CARD_REFUSED_LINE_FORM, 1},
    {"", CARD_REFUSED_EMPTY_JOB, 0},
};

/* what has nothing to do with a text's length and characters; most_message_words has a 49th line */
static void declined_jobs(void) {
    for (size_t i = 0; i < sizeof jobs / sizeof *jobs; i++)
        answered((const uint8_t *)jobs[i].job, strlen(jobs[i].job), jobs[i].number, jobs[i].place, 0);
}

/* jobs with a book of three phrases */
static const struct declined named[] = {
    {"000009 9 00\n000009 9 02\n", 0, 0},
    {"000009 9 00\n000009 9 03\n", CARD_REFUSED_NO_PHRASE, 2},
    {"000009 9 99\n", CARD_REFUSED_NO_PHRASE, 1},
    {"000009 9 0A\n", CARD_REFUSED_NO_PHRASE, 1},
    {"000009 9 0002\n", CARD_REFUSED_NO_PHRASE, 1},
    {"000009 9\n", CARD_REFUSED_NO_PHRASE, 1},
    {"000009 9 7\n", CARD_REFUSED_LINE_FORM, 1},
    {"000009 9 \n", CARD_REFUSED_LINE_FORM, 1},
    {"000009 9 0a\n", CARD_REFUSED_LINE_FORM, 1},
    {"200000 9\n", CARD_REFUSED_IDENTITY_TOO_LARGE, 1},
    {"1EA270 9\n", CARD_REFUSED_IDENTITY_RESERVED, 1},
    {"000009 8 00\n", CARD_REFUSED_KIND, 1},
    {"", CARD_REFUSED_EMPTY_JOB, 0},
};

/* a book and the place of its number 19, 0 where it is written as it should be */
struct book {
    const char *text;
    size_t place;
};
static const struct book books[] = {
    {"41\n", 0},
    {"7F\n01\n", 0},
    {"\n", 1},
    {"41", 1},
    {"41\n4", 2},
    {"41\n\n41\n", 2},
    {"41\n414\n", 2},
    {"4a\n", 1},
    {"41 \n", 1},
    {"00\n", 1},
    {"41\n4103\n", 2},
    {"04\n", 1},
    {"80\n", 1},
    {"FF\n\n", 1},
};

/* a good job, a faulty one and an empty one, with a book that is 19 at this place, or else is taken */
static void booked(const uint8_t *with, size_t length, size_t place) {
    static const struct declined some[] = {
        {"000009 9 00\n", 0, 0}, {"000009 9 0\n", CARD_REFUSED_LINE_FORM, 1}, {"", CARD_REFUSED_EMPTY_JOB, 0}};
    for (size_t i = 0; i < sizeof some / sizeof *some; i++) {
        uint32_t number = place == 0 ? some[i].number : CARD_REFUSED_BOOK;
        answered_with(with, length, (const uint8_t *)some[i].job, strlen(some[i].job), number, place == 0 ? some[i].place : place, 0);
    }
}

/* phrases and books, and the longest book: its last phrase, and what is one too many */
static void declined_phrases(void) {
    const char *three = "41\n42\n43\n";
    for (size_t i = 0; i < sizeof named / sizeof *named; i++) {
        const struct declined *one = &named[i];
        answered_with((const uint8_t *)three, strlen(three), (const uint8_t *)one->job, strlen(one->job), one->number, one->place, 0);
    }
    for (size_t i = 0; i < sizeof books / sizeof *books; i++)
        booked((const uint8_t *)books[i].text, strlen(books[i].text), books[i].place);
    size_t length = phrases(CARD_PHRASES, 240);
    EXPECT(length == CARD_BOOK_BYTES);
    booked(book, length, 0);
    answered_with(book, length, (const uint8_t *)"000009 9 99\n", 12, 0, 0, 0);
    booked(book, length - 1, CARD_PHRASES);
    booked(book, phrases(CARD_PHRASES, 241), CARD_PHRASES);
    booked(book, phrases(CARD_PHRASES, 0), CARD_PHRASES);
    booked(book, phrases(CARD_PHRASES + 1, 1), CARD_PHRASES + 1);
    booked(book, CARD_BOOK_BYTES + 1, CARD_PHRASES + 1);
    length = phrases(CARD_PHRASES - 1, 240);
    booked(book, length, 0);
    answered_with(book, length, (const uint8_t *)"000009 9 99\n", 12, CARD_REFUSED_NO_PHRASE, 1, 0);
}

/* a page with so many characters, of a data page digits: bad ones at up to two positions (0 is none), the first one first, and perhaps
 * a space as the last */
struct text {
    int kind, characters, bad, also_bad, ends_in_space;
    uint32_t number;
};
static const struct text texts[] = {
    {0, 0, 0, 0, 0, 0},
    {0, 1, 0, 0, 0, CARD_REFUSED_TONE_WITH_TEXT},
    {1, 1, 1, 0, 0, CARD_REFUSED_TONE_WITH_TEXT},
    {2, 61, 0, 0, 1, CARD_REFUSED_TONE_WITH_TEXT},
    {3, 0, 0, 0, 0, 0},
    {3, 241, 1, 241, 0, CARD_REFUSED_TONE_WITH_TEXT},
    {4, 0, 0, 0, 0, CARD_REFUSED_NO_TEXT},
    {4, 1, 0, 0, 0, 0},
    {4, 59, 0, 0, 0, 0},
    {4, 60, 0, 0, 0, 0},
    {4, 61, 0, 0, 0, CARD_REFUSED_TEXT_TOO_LONG},
    {4, 61, 1, 61, 0, CARD_REFUSED_TEXT_TOO_LONG},
    {4, 61, 0, 0, 1, CARD_REFUSED_TEXT_TOO_LONG},
    {4, 1, 1, 0, 0, CARD_REFUSED_CHARACTER},
    {4, 59, 59, 0, 0, CARD_REFUSED_CHARACTER},
    {4, 60, 1, 0, 0, CARD_REFUSED_CHARACTER},
    {4, 60, 30, 0, 0, CARD_REFUSED_CHARACTER},
    {4, 60, 60, 0, 0, CARD_REFUSED_CHARACTER},
    {4, 60, 1, 60, 0, CARD_REFUSED_CHARACTER},
    {4, 60, 30, 31, 1, CARD_REFUSED_CHARACTER},
    {4, 60, 59, 0, 1, CARD_REFUSED_CHARACTER},
    {4, 60, 0, 0, 1, CARD_REFUSED_SPACE_AT_END},
    {4, 1, 0, 0, 1, CARD_REFUSED_SPACE_AT_END},
    {5, 0, 0, 0, 0, CARD_REFUSED_NO_TEXT},
    {5, 1, 0, 0, 1, 0},
    {5, 61, 0, 0, 0, 0},
    {5, 239, 0, 0, 0, 0},
    {5, 240, 0, 0, 1, 0},
    {5, 241, 0, 0, 0, CARD_REFUSED_TEXT_TOO_LONG},
    {5, 241, 1, 241, 0, CARD_REFUSED_TEXT_TOO_LONG},
    {5, 1, 1, 0, 0, CARD_REFUSED_CHARACTER},
    {5, 239, 239, 0, 0, CARD_REFUSED_CHARACTER},
    {5, 240, 1, 0, 0, CARD_REFUSED_CHARACTER},
    {5, 240, 120, 0, 0, CARD_REFUSED_CHARACTER},
    {5, 240, 240, 0, 0, CARD_REFUSED_CHARACTER},
    {5, 240, 120, 240, 0, CARD_REFUSED_CHARACTER},
    {5, 240, 239, 0, 1, CARD_REFUSED_CHARACTER},
    {6, 0, 0, 0, 0, CARD_REFUSED_NO_TEXT},
    {6, 1, 0, 0, 0, CARD_REFUSED_PARTIAL_GROUP},
    {6, 4, 0, 0, 0, CARD_REFUSED_PARTIAL_GROUP},
    {6, 5, 0, 0, 0, 0},
    {6, 6, 0, 0, 0, CARD_REFUSED_PARTIAL_GROUP},
    {6, 419, 0, 0, 0, CARD_REFUSED_PARTIAL_GROUP},
    {6, 420, 0, 0, 0, 0},
    {6, 421, 0, 0, 0, CARD_REFUSED_PARTIAL_GROUP},
    {6, 425, 0, 0, 0, CARD_REFUSED_TEXT_TOO_LONG},
    {7, 0, 0, 0, 0, CARD_REFUSED_NO_TEXT},
    {7, 4, 0, 0, 0, CARD_REFUSED_PARTIAL_GROUP},
    {7, 5, 0, 0, 0, 0},
    {7, 420, 0, 0, 0, 0},
    {7, 421, 0, 0, 0, CARD_REFUSED_PARTIAL_GROUP},
    {7, 425, 0, 0, 0, CARD_REFUSED_TEXT_TOO_LONG},
};

/* the page's line, behind what stands in the job: where it ends */
static size_t put_text(size_t at, const struct text *page) {
    char head[16];
    sprintf(head, "000009 %d%s", page->kind, page->characters > 0 ? " " : "");
    at = put(job, at, head);
    for (int i = 1; i <= page->characters; i++) {
        int bad = i == page->bad || i == page->also_bad;
        at = put(job, at, page->kind > 5 ? "F" : bad ? "00" : page->ends_in_space && i == page->characters ? "20" : "31");
    }
    return put(job, at, "\n");
}

/* a text's length and characters, in the second line of a job */
static void declined_texts(void) {
    for (size_t i = 0; i < sizeof texts / sizeof *texts; i++) {
        size_t length = put_text(put(job, 0, "000009 0\n"), &texts[i]);
        uint32_t number = texts[i].number;
        answered(job, length, number, number == 0 ? 0 : 2, number == CARD_REFUSED_CHARACTER ? (size_t)texts[i].bad : 0);
    }
}

/* the other numbers */
static void declined_words(const struct engine *by) {
    one_long_page();
    EXPECT(by->correct(7).number == CARD_REFUSED_WORD);
    EXPECT(by->read_words(words, 18, lines, CARD_LINES_BYTES).number == CARD_REFUSED_BATCHES_FORM);
    struct card_reading d = by->read_words(words + CARD_PREAMBLE_WORDS + 1, 17, lines, CARD_LINES_BYTES);
    EXPECT(d.number == CARD_REFUSED_NO_SYNC && d.place == 1);
    EXPECT(by->read_words(words, 17 * 301, lines, CARD_LINES_BYTES).number == CARD_REFUSED_TOO_MANY_BATCHES);
    EXPECT(card_start((const uint8_t *)"000009 0\n", 9, NULL, 0, &state).number == 0);
    state.pages.count = CARD_PAGES + 1;
    EXPECT(card_step(&state).number == CARD_REFUSED_STATE);
}

/* an identity to follow, and the number that it gets whatever it is followed in, 0 where it is taken */
struct identity {
    uint32_t identity, number;
};
static const struct identity identities[] = {
    {0x000000, 0},
    {0x1EA26F, 0},
    {0x1EA270, CARD_REFUSED_IDENTITY_RESERVED},
    {0x1EA277, CARD_REFUSED_IDENTITY_RESERVED},
    {0x1EA278, 0},
    {0x1F347F, 0},
    {0x1F3480, CARD_REFUSED_IDENTITY_RESERVED},
    {0x1F3487, CARD_REFUSED_IDENTITY_RESERVED},
    {0x1F3488, 0},
    {0x1FFFFF, 0},
    {0x200000, CARD_REFUSED_IDENTITY_TOO_LARGE},
    {0x3EA270, CARD_REFUSED_IDENTITY_TOO_LARGE},
    {0x3F3480, CARD_REFUSED_IDENTITY_TOO_LARGE},
    {0xFFFFFFFF, CARD_REFUSED_IDENTITY_TOO_LARGE},
};

/* an identity's own number and 0, or else the number and the place of what it is followed in; null with length 0 among it */
static void followed_in(const struct identity *one) {
    uint32_t id = one->identity, own = one->number;
    const uint32_t *batches = words + CARD_PREAMBLE_WORDS;
    struct card_following f = card_follow_words(id, NULL, 0, NULL, 0);
    EXPECT(f.number == (own ? own : CARD_REFUSED_BATCHES_FORM) && f.place == 0);
    f = card_follow_words(id, words, 17 * 301, lines, CARD_LINES_BYTES);
    EXPECT(f.number == (own ? own : CARD_REFUSED_TOO_MANY_BATCHES) && f.place == 0);
    f = card_follow_words(id, batches + 1, 17, NULL, 0);
    EXPECT(f.number == (own ? own : CARD_REFUSED_NO_SYNC) && f.place == (own ? 0 : 1));
    f = card_follow_words(id, batches, 17 * 300, NULL, 0);
    EXPECT(f.number == (own ? own : id == 0 ? CARD_REFUSED_BUFFER_TOO_SHORT : 0) && f.place == 0);
    f = card_follow_listing(id, NULL, 0, NULL, 0);
    EXPECT(f.number == (own ? own : CARD_REFUSED_BATCHES_FORM) && f.place == (own ? 0 : 1));
    f = card_follow_listing(id, listing, CARD_LISTING_BYTES, NULL, 0);
    EXPECT(f.number == (own ? own : id == 0 ? CARD_REFUSED_BUFFER_TOO_SHORT : 0) && f.place == 0);
    EXPECT(f.bytes == 0 && f.lines == 0);
}

static void followed_identities(void) {
    one_long_page();
    list_words();
    for (size_t i = 0; i < sizeof identities / sizeof *identities; i++)
        followed_in(&identities[i]);
}

/* a recording in the making, and how many bits it has */
static size_t recorded;

/* the lowest so many bits of a number */
static void put_bits(uint32_t bits, int count) {
    for (int i = count - 1; i >= 0; i--, recorded++) {
        if (recorded % 8 == 0)
            recording[recorded / 8] = 0;
        recording[recorded / 8] |= (uint8_t)((bits >> i & 1) << (7 - recorded % 8));
    }
}

static void put_zeros(size_t count) {
    while (count-- > 0)
        put_bits(0, 1);
}

/* a batch with a numeric page to its end, 15 message words of five zeros each */
static void put_full_batch(void) {
    put_bits(0x7CD215D8, 32);
    put_bits(0x00000000, 32);
    for (int i = 0; i < 15; i++)
        put_bits(0x80000769, 32);
}

/* so many bits in front, a full batch, and so many behind it, whole bytes in all: what is received */
static struct card_receiving one_batch(size_t front, size_t behind) {
    recorded = 0;
    put_zeros(front);
    put_full_batch();
    put_zeros(behind);
    EXPECT(recorded % 8 == 0);
    return card_receive(recording, recorded / 8, received, CARD_RECEIVED_BYTES);
}

/* the most lines that a recording has: 300 batches, each with a full page that is cut */
static void longest_receiving(void) {
    recorded = 0;
    for (int i = 0; i < 300; i++) {
        put_full_batch();
        put_zeros(1);
    }
    put_zeros(548);
    size_t length = recorded / 8;
    memset(received, UNTOUCHED, sizeof received);
    EXPECT(card_receive(recording, length, received, CARD_RECEIVED_BYTES - 1).number == CARD_REFUSED_BUFFER_TOO_SHORT);
    EXPECT(received[0] == UNTOUCHED && received[CARD_RECEIVED_BYTES - 1] == UNTOUCHED);
    struct card_receiving c = card_receive(recording, length, received, CARD_RECEIVED_BYTES);
    EXPECT(c.number == 0 && c.batches == 300 && c.pages == 300 && c.bytes == CARD_RECEIVED_BYTES && c.lost == 0 && c.orphans == 0);
    EXPECT(memcmp(received + CARD_RECEIVED_BYTES - 4, "30-\n", 4) == 0 && received[CARD_RECEIVED_BYTES] == UNTOUCHED);
}

/* bits about a batch, batches about the most, and bytes about the most */
static void received_limits(void) {
    const size_t most = 8 * (size_t)CARD_RECORDING_BYTES, batch = 544;
    struct card_receiving c = one_batch(1, 543);
    EXPECT(c.number == 0 && c.batches == 1 && c.bytes == 160 && received[158] == '0' && received[159] == '\n');
    c = one_batch(0, 544);
    EXPECT(c.number == 0 && c.batches == 1 && c.bytes == 161 && received[159] == '-' && received[160] == '\n');
    EXPECT(one_batch(8, 0).batches == 1);
    /* the last bit of the batch is missing */
    one_batch(9, 7);
    c = card_receive(recording, 69, NULL, 0);
    EXPECT(c.number == 0 && c.batches == 0 && c.bytes == 0);
    EXPECT(one_batch(most - batch, 0).batches == 1);
    recording[CARD_RECORDING_BYTES] = 0;
    EXPECT(card_receive(recording, CARD_RECORDING_BYTES + 1, received, CARD_RECEIVED_BYTES).number == CARD_REFUSED_RECORDING_TOO_LONG);
    recorded = 0;
    while (recorded + batch <= most)
        put_full_batch();
    EXPECT(card_receive(recording, 68 * 300, received, CARD_RECEIVED_BYTES).batches == 300);
    EXPECT(card_receive(recording, 68 * 301 - 1, received, CARD_RECEIVED_BYTES).batches == 300);
    EXPECT(card_receive(recording, 68 * 301, received, CARD_RECEIVED_BYTES).number == CARD_REFUSED_TOO_MANY_BATCHES);
    EXPECT(card_receive(recording, CARD_RECORDING_BYTES, NULL, 0).number == CARD_REFUSED_TOO_MANY_BATCHES);
    EXPECT(card_receive(recording, CARD_RECORDING_BYTES + 1, NULL, 0).number == CARD_REFUSED_RECORDING_TOO_LONG);
    /* null with length 0: no batch, and no room */
    EXPECT(card_receive(recording, 68, NULL, 0).number == CARD_REFUSED_BUFFER_TOO_SHORT);
    EXPECT(card_receive(NULL, 0, received, CARD_RECEIVED_BYTES).number == 0);
    c = card_receive(NULL, 0, NULL, 0);
    EXPECT(c.number == 0 && c.place == 0 && c.batches == 0 && c.bytes == 0 && c.pages == 0);
}

/* a coverage report as its numbers: the listings, then 54 counts */
#define NUMBERS 55
static uint32_t numbers[NUMBERS];
CARD_ASSERT(sizeof(struct card_coverage) == sizeof numbers);

/* what is answered where a listing is added to the numbers; the report that comes of it is kept */
static struct card_coverage report;
static struct card_refusal added(const uint8_t *text, size_t length) {
    memcpy(&report, numbers, sizeof report);
    return card_coverage_add(text, length, &report);
}

/* a good listing and an empty one are answered alike by this report: with this number and place, and where that is declined the report
 * stays as it is */
static void covered(uint32_t number, size_t place) {
    for (size_t length = 0; length <= CARD_LISTING_BYTES; length += CARD_LISTING_BYTES) {
        struct card_refusal r = added(length == 0 ? NULL : listing, length);
        EXPECT(r.number == number && r.place == place && r.position == 0);
        EXPECT(number == 0 ? report.listings == numbers[0] + 1 : memcmp(&report, numbers, sizeof report) == 0);
    }
}

/* each count alone at 600 times the listings and one over, with as few listings as there can be and as many; all counts there */
static void covered_limits(void) {
    static const uint32_t some[] = {0, 1, 999, CARD_COVERAGE_LISTINGS, CARD_COVERAGE_LISTINGS + 1, 7158279, 0xFFFFFFFF};
    one_long_page();
    list_words();
    for (size_t i = 0; i < sizeof some / sizeof *some; i++) {
        uint32_t full = some[i] == CARD_COVERAGE_LISTINGS, many = some[i] > CARD_COVERAGE_LISTINGS, most = many ? 0 : 600 * some[i];
        uint32_t number = many ? CARD_REFUSED_STATE : full ? CARD_REFUSED_TOO_MANY_BATCHES : 0;
        memset(numbers, 0, sizeof numbers);
        numbers[0] = some[i];
        for (int at = 1; at < NUMBERS; at++) {
            numbers[at] = most + 1;
            covered(CARD_REFUSED_STATE, 0);
            numbers[at] = most;
            covered(number, full ? CARD_COVERAGE_LISTINGS + 1 : 0);
            numbers[at] = i % 2 == 0 ? most : 0;
        }
    }
}

/* the most that a listing adds; of 301 batches it is refused where the last sync's line ends, and malformed a byte before */
static void longest_covering(void) {
    memset(numbers, 0, sizeof numbers);
    one_long_page();
    list_words();
    EXPECT(added(listing, CARD_LISTING_BYTES).number == 0);
    EXPECT(report.listings == 1 && report.sync.unchanged == 300 && report.pages[0].whole == 1 && report.refused[0] == 0);
    for (int frame = 0; frame < 8; frame++)
        EXPECT(report.frames[frame].unchanged == 600 && report.frames[frame].one == 0 && report.frames[frame].lost == 0);
    size_t at = 0;
    for (int i = 0; i < 36; i++)
        at = put(longest, at, "00000000 00000000\n");
    for (int i = 0; i < 301; i++) {
        memcpy(longest + at, listing + 9 * CARD_PREAMBLE_WORDS, 153);
        at += 153;
    }
    EXPECT(added(longest, at - 153).number == 0 && report.refused[0] == 0 && report.refused[2] == 0 && report.sync.unchanged == 300);
    EXPECT(added(longest, at - 153 + 8).number == 0 && report.refused[0] == 1 && report.refused[2] == 0 && report.sync.unchanged == 0);
    EXPECT(added(longest, at - 153 + 9).number == 0 && report.refused[0] == 0 && report.refused[2] == 1 && report.sync.unchanged == 0);
    EXPECT(added(longest, at).number == 0 && report.refused[0] == 0 && report.refused[2] == 1 && report.sync.unchanged == 0);
}

/* rates by hand: of all rows with these counts in every frame and for sync, which has no lost ones */
struct rated {
    uint32_t unchanged, one, two, lost;
    uint64_t rate, remainder;
};
static const struct rated rates[] = {
    {0, 0, 0, 0, 0, 0},
    {5, 0, 0, 0, 0, 0},
    {0, 1, 0, 0, 31250, 0},
    {0, 0, 1, 0, 62500, 0},
    {0, 0, 0, 9, 0, 0},
    {0, 1, 0, 1, 15625, 0},
    {2, 1, 0, 0, 10416, 64},
    {3, 1, 1, 2, 13392, 192},
    {31249, 1, 0, 0, 1, 0},
    {31250, 1, 0, 0, 0, 1000000},
    {0xFFFFFFFF, 0xFFFFFFFF, 0xFFFFFFFF, 0xFFFFFFFF, 23437, (uint64_t)64 * 0xFFFFFFFF},
    {0, 0, 0xFFFFFFFF, 0, 62500, 0},
};

static void covered_rates(void) {
    for (size_t i = 0; i < sizeof rates / sizeof *rates; i++) {
        const struct rated *one = &rates[i];
        const struct card_frame_words frame = {one->unchanged, one->one, one->two, one->lost};
        const struct card_sync_words sync = {one->unchanged, one->one, one->two};
        memset(&report, 0, sizeof report);
        for (uint32_t row = 0; row < 8; row++)
            report.frames[row] = frame;
        report.sync = sync;
        for (uint32_t row = 0; row < 20; row++) {
            struct card_rate r = card_coverage_rate(&report, row);
            if (row < CARD_SYNC_ROW || (row == CARD_SYNC_ROW && one->lost == 0))
                EXPECT(r.rate == one->rate && r.remainder == one->remainder);
            else if (row != CARD_SYNC_ROW)
                EXPECT(r.rate == 0 && r.remainder == 0);
        }
        struct card_rate none = card_coverage_rate(&report, 0xFFFFFFFF);
        EXPECT(none.rate == 0 && none.remainder == 0);
    }
}

/* null with length 0 in each place: the same answers as a pointer to no elements gets */
static void null_jobs(void) {
    const uint8_t *text = (const uint8_t *)"000009 4 3132\n";
    const uint8_t *half = (const uint8_t *)"4";
    EXPECT(card_send(NULL, 0, NULL, 0, words, CARD_WORDS, slots, CARD_PAGES).number == CARD_REFUSED_EMPTY_JOB);
    EXPECT(card_send(NULL, 0, NULL, 0, NULL, 0, NULL, 0).number == CARD_REFUSED_EMPTY_JOB);
    EXPECT(card_send(NULL, 0, half, 1, NULL, 0, NULL, 0).number == CARD_REFUSED_BOOK);
    EXPECT(card_send(text, 14, NULL, 0, NULL, 0, slots, CARD_PAGES).number == CARD_REFUSED_BUFFER_TOO_SHORT);
    EXPECT(card_send(text, 14, NULL, 0, words, CARD_WORDS, NULL, 0).number == CARD_REFUSED_BUFFER_TOO_SHORT);
    EXPECT(card_send(text, 14, NULL, 0, NULL, 0, NULL, 0).number == CARD_REFUSED_BUFFER_TOO_SHORT);
    EXPECT(card_send(text, 13, NULL, 0, NULL, 0, NULL, 0).number == CARD_REFUSED_LINE_FORM);
    EXPECT(card_list(NULL, 0, NULL, 0, listing, CARD_LISTING_BYTES).number == CARD_REFUSED_EMPTY_JOB);
    EXPECT(card_list(NULL, 0, NULL, 0, NULL, 0).number == CARD_REFUSED_EMPTY_JOB);
    EXPECT(card_list(NULL, 0, half, 1, NULL, 0).number == CARD_REFUSED_BOOK);
    EXPECT(card_list(text, 14, NULL, 0, NULL, 0).number == CARD_REFUSED_BUFFER_TOO_SHORT);
    memset(&state, UNTOUCHED, sizeof state);
    memcpy(&kept, &state, sizeof state);
    EXPECT(card_start(NULL, 0, NULL, 0, &state).number == CARD_REFUSED_EMPTY_JOB && memcmp(&state, &kept, sizeof state) == 0);
    EXPECT(card_start(NULL, 0, half, 1, &state).number == CARD_REFUSED_BOOK && memcmp(&state, &kept, sizeof state) == 0);
}

static void null_readings(const struct engine *by) {
    const uint32_t *batches = words + CARD_PREAMBLE_WORDS;
    one_long_page();
    list_words();
    EXPECT(by->read_words(NULL, 0, lines, CARD_LINES_BYTES).number == CARD_REFUSED_BATCHES_FORM);
    EXPECT(by->read_words(NULL, 0, NULL, 0).number == CARD_REFUSED_BATCHES_FORM);
    EXPECT(by->read_words(batches, 17 * 300, NULL, 0).number == CARD_REFUSED_BUFFER_TOO_SHORT);
    EXPECT(by->read_listing(NULL, 0, lines, CARD_LINES_BYTES).number == CARD_REFUSED_BATCHES_FORM);
    EXPECT(by->read_listing(NULL, 0, NULL, 0).number == CARD_REFUSED_BATCHES_FORM);
    EXPECT(by->read_listing(listing, CARD_LISTING_BYTES, NULL, 0).number == CARD_REFUSED_BUFFER_TOO_SHORT);
    /* nothing but orphans: no line, so that no buffer is too short */
    words[CARD_PREAMBLE_WORDS + 1] = 0x80000769;
    list_words();
    struct card_reading d = by->read_words(batches, 17 * 300, NULL, 0);
    EXPECT(d.number == 0 && d.bytes == 0 && d.pages == 0 && d.orphans == 16 * 300);
    d = by->read_listing(listing, CARD_LISTING_BYTES, NULL, 0);
    EXPECT(d.number == 0 && d.bytes == 0 && d.pages == 0 && d.orphans == 16 * 300);
}

int main(void) {
    longest_transmission();
    most_message_words("000007 5 ", "7A", 240);
    most_message_words("000007 6 ", "ABCDE", 84);
    most_message_words("000007 9 99", "", 0);
    declined_jobs();
    declined_phrases();
    declined_texts();
    null_jobs();
    for (int i = 0; i < 2; i++) {
        longest_reading(&engines[i]);
        declined_words(&engines[i]);
        null_readings(&engines[i]);
    }
    longest_following();
    followed_identities();
    longest_receiving();
    received_limits();
    longest_covering();
    covered_limits();
    covered_rates();
    return wrong;
}
