/* The layout of the structs in include/spuggenor.h against what the library itself writes and reads.
 *
 *     gcc -Wall -Wextra tests/c/layout.c -Iinclude target/staticlib/libcard.a -o target/layout && target/layout
 * It prints each difference, and ends with status 0 where there is none. */
#include "engines.h"
#include "spuggenor.h"
#include <stdio.h>
#include <string.h>

static int wrong;
#define EXPECT(fact) do { if (!(fact)) { printf("line %d: %s\n", __LINE__, #fact); wrong = 1; } } while (0)

/* the answers that say how many bits are changed */
CARD_ASSERT(sizeof(struct card_word) == 12 && offsetof(struct card_word, changed) == 8);
CARD_ASSERT(sizeof(struct card_changes) == 8 && offsetof(struct card_changes, syncs) == 4);
CARD_ASSERT(sizeof(struct card_reading) == 40 && offsetof(struct card_reading, changed) == 32);

/* the answer that counts one identity's lines */
CARD_ASSERT(sizeof(struct card_following) == 24 && offsetof(struct card_following, bytes) == 8);
CARD_ASSERT(offsetof(struct card_following, number) == 16 && offsetof(struct card_following, lines) == 20);

/* the answer that counts a recording's batches */
CARD_ASSERT(sizeof(struct card_receiving) == 48 && offsetof(struct card_receiving, bytes) == 8);
CARD_ASSERT(offsetof(struct card_receiving, number) == 16 && offsetof(struct card_receiving, batches) == 20);
CARD_ASSERT(offsetof(struct card_receiving, pages) == 24 && offsetof(struct card_receiving, lost) == 28);
CARD_ASSERT(offsetof(struct card_receiving, orphans) == 32 && offsetof(struct card_receiving, changed) == 36);

/* the report of a month, its parts and the rate of a row */
CARD_ASSERT(sizeof(struct card_frame_words) == 16 && offsetof(struct card_frame_words, one) == 4);
CARD_ASSERT(offsetof(struct card_frame_words, two) == 8 && offsetof(struct card_frame_words, lost) == 12);
CARD_ASSERT(sizeof(struct card_sync_words) == 12 && offsetof(struct card_sync_words, one) == 4 && offsetof(struct card_sync_words, two) == 8);
CARD_ASSERT(sizeof(struct card_page_counts) == 8 && offsetof(struct card_page_counts, cut) == 4);
CARD_ASSERT(sizeof(struct card_coverage) == 220 && offsetof(struct card_coverage, listings) == 0 && offsetof(struct card_coverage, refused) == 4);
CARD_ASSERT(offsetof(struct card_coverage, frames) == 16 && offsetof(struct card_coverage, sync) == 144 && offsetof(struct card_coverage, pages) == 156);
CARD_ASSERT(sizeof(struct card_rate) == 16 && offsetof(struct card_rate, remainder) == 8);

/* the answers that have a position */
CARD_ASSERT(sizeof(struct card_report) == 32 && offsetof(struct card_report, position) == 8 && offsetof(struct card_report, number) == 16);
CARD_ASSERT(sizeof(struct card_bytes) == 32 && offsetof(struct card_bytes, position) == 8 && offsetof(struct card_bytes, number) == 24);
CARD_ASSERT(sizeof(struct card_refusal) == 24 && offsetof(struct card_refusal, position) == 8 && offsetof(struct card_refusal, number) == 16);

/* the counts of a reading that is declined */
#define ALL_ZERO(d) ((d).bytes == 0 && (d).pages == 0 && (d).lost == 0 && (d).orphans == 0 && (d).changed.slots == 0 && (d).changed.syncs == 0)

/* "12" to 000009, then "123456", which takes two message codewords, to 00000F; the first line alone is 14 bytes */
static const uint8_t job[] = "000009 4 3132\n00000F 4 313233343536\n";
/* line 2 has its first bad character at position 3 */
static const uint8_t bad_character[] = "000009 0\n000009 4 31322A2A\n";
/* the phrase 01, "A", and its book, of which the first 4 bytes alone break off in line 2 */
static const uint8_t phrase[] = "000000 9 01\n", book[] = "42\n41\n";
static struct card_sender state, kept;
static uint32_t words[CARD_WORDS], slots[CARD_PAGES + 1];
static uint8_t out[CARD_LISTING_BYTES];

/* a job started, and one value of its state set: what the next step answers, and whether the state is as it was where it is declined */
#define STEP_WITH(field, value, expected) do { \
        EXPECT(card_start(job, sizeof job - 1, NULL, 0, &state).number == 0); \
        state.field = (value); memcpy(&kept, &state, sizeof state); \
        EXPECT(card_step(&state).number == (expected)); \
        EXPECT((expected) == 0 || memcmp(&kept, &state, sizeof state) == 0); } while (0)

/* every field of the state that a start gives; a declined start leaves it as it was */
static void start(void) {
    memset(&state, 0xFF, sizeof state);
    struct card_refusal r = card_start(job, sizeof job - 1, NULL, 0, &state);
    EXPECT(r.place == 0 && r.position == 0 && r.number == 0);
    EXPECT(state.cursor.slot == 0 && state.cursor.page == 0 && state.cursor.word == 0 && state.cursor.preamble == 18);
    EXPECT(state.cursor.synced == 0 && state.cursor.running == 0 && state.cursor.message == 0);
    EXPECT(state.pages.count == 2 && state.pages.addresses[0] == 0x000026EC && state.pages.addresses[2] == 0);
    EXPECT(state.pages.starts[0] == 0 && state.pages.starts[1] == 1 && state.pages.starts[47] == 0);
    EXPECT(state.pages.lengths[0] == 1 && state.pages.lengths[1] == 2 && state.pages.lengths[47] == 0);
    EXPECT(state.pages.frames[0] == 1 && state.pages.frames[1] == 7 && state.pages.frames[47] == 0);
    EXPECT(state.sent[0] == 0 && state.sent[47] == 0 && state.words[0] == 0xC2199DEA && state.words[3] == 0 && state.words[4031] == 0);
    memcpy(&kept, &state, sizeof state);
    r = card_start(bad_character, sizeof bad_character - 1, NULL, 0, &state);
    EXPECT(r.place == 2 && r.position == 3 && r.number == 6 && memcmp(&kept, &state, sizeof state) == 0);
}

/* job and book, each with its length, in every call that takes them */
static void with_book(void) {
    struct card_report s = card_send(phrase, sizeof phrase - 1, book, sizeof book - 1, words, 35, slots, 1);
    EXPECT(s.number == 0 && s.batches == 1 && s.words == 35 && slots[0] == 0 && words[19] == 0x00001DA5 && words[20] >> 11 == 0x182000);
    struct card_bytes l = card_list(phrase, sizeof phrase - 1, book, sizeof book - 1, out, sizeof out);
    EXPECT(l.number == 0 && l.bytes == 315 && memcmp(out + 171, "00001DA5", 8) == 0);
    struct card_refusal r = card_start(phrase, sizeof phrase - 1, book, sizeof book - 1, &state);
    EXPECT(r.number == 0 && state.pages.count == 1 && state.pages.addresses[0] == 0x00001DA5 && state.words[0] == words[20]);
    s = card_send(phrase, sizeof phrase - 1, book, 4, words, 35, slots, 1);
    EXPECT(s.place == 2 && s.position == 0 && s.number == 19 && s.batches == 0 && s.words == 0);
    l = card_list(phrase, sizeof phrase - 1, book, 4, out, sizeof out);
    EXPECT(l.place == 2 && l.position == 0 && l.number == 19 && l.bytes == 0);
    memcpy(&kept, &state, sizeof state);
    r = card_start(phrase, sizeof phrase - 1, book, 4, &state);
    EXPECT(r.place == 2 && r.position == 0 && r.number == 19 && memcmp(&kept, &state, sizeof state) == 0);
}

/* number 11 at each limit */
static void limits(void) {
    STEP_WITH(cursor.slot, 4800, 0);
    STEP_WITH(cursor.slot, 4801, 11);
    STEP_WITH(pages.count, 48, 0);
    STEP_WITH(pages.count, 49, 11);
    STEP_WITH(pages.frames[1], 8, 11);
    STEP_WITH(pages.frames[2], 8, 0);
    STEP_WITH(pages.starts[1], 4030, 0);
    STEP_WITH(pages.starts[1], 4031, 11);
    STEP_WITH(pages.lengths[0], 4032, 0);
    STEP_WITH(pages.lengths[0], 4033, 11);
    card_start(job, sizeof job - 1, NULL, 0, &state);
    state.cursor.running = 255; state.cursor.page = 1; state.cursor.word = 1; state.cursor.preamble = 0; state.cursor.synced = 2;
    struct card_step_answer a = card_step(&state);
    EXPECT(a.number == 0 && a.done == 0 && a.word == state.words[2] && state.cursor.running == 0 && state.cursor.message == 1 && state.cursor.slot == 1);
    state.cursor.running = 1;
    EXPECT(card_step(&state).number == 11);
}

/* the flag message makes an open slot the pause: a page with message codewords waits for the next one, a tone does not */
static void pause_slot(void) {
    for (uint16_t length = 0; length < 2; length++) {
        card_start(job, sizeof job - 1, NULL, 0, &state);
        state.cursor.preamble = 0; state.cursor.slot = 2; state.cursor.message = 255; state.pages.lengths[0] = length;
        struct card_step_answer a = card_step(&state);
        EXPECT(a.word == (length ? 0x7A89C197 : 0x000026EC) && (state.sent[0] == 0) == (length != 0) && state.cursor.message == 0);
        a = card_step(&state);
        EXPECT(a.word == (length ? 0x000026EC : 0x7A89C197) && state.sent[0] != 0);
    }
}

/* every field of the other answers */
static void single_words(const struct engine *by) {
    struct card_word w = by->correct(0x00000003);
    EXPECT(w.word == 0 && w.number == 0 && w.changed == 2);
    w = by->correct(0x7A89C196);
    EXPECT(w.word == 0x7A89C197 && w.number == 0 && w.changed == 1);
    w = by->correct(0x7A89C197);
    EXPECT(w.word == 0x7A89C197 && w.number == 0 && w.changed == 0);
    w = by->correct(0x00000007);
    EXPECT(w.word == 7 && w.number == 20 && w.changed == 0);
}

static void sending(void) {
    slots[2] = 77; words[35] = 78;
    struct card_report s = card_send(job, 14, NULL, 0, words, 35, slots, 1);
    EXPECT(s.place == 0 && s.position == 0 && s.number == 0 && s.batches == 1 && s.words == 35);
    EXPECT(slots[0] == 2 && words[21] == 0x000026EC && words[35] == 78);
    s = card_send(job, 14, NULL, 0, words, 34, slots, 1);
    EXPECT(s.place == 0 && s.position == 0 && s.number == 10 && s.batches == 0 && s.words == 0);
    s = card_send(bad_character, sizeof bad_character - 1, NULL, 0, words, 35, slots, 2);
    EXPECT(s.place == 2 && s.position == 3 && s.number == 6 && s.batches == 0 && s.words == 0);
    struct card_bytes l = card_list(bad_character, sizeof bad_character - 1, NULL, 0, out, sizeof out);
    EXPECT(l.place == 2 && l.position == 3 && l.number == 6 && l.bytes == 0);
    l = card_list(job, 14, NULL, 0, out, sizeof out);
    EXPECT(l.place == 0 && l.position == 0 && l.number == 0 && l.bytes == 315);
}

/* of the words and the listing that were sent */
static void reading(const struct engine *by) {
    memset(out + 400, 0, 14);
    struct card_reading d = by->read_listing(out, 315, out + 400, 14);
    EXPECT(d.place == 0 && d.number == 0 && d.bytes == 14 && d.pages == 1 && d.lost == 0 && d.orphans == 0 && memcmp(out + 400, job, 14) == 0);
    EXPECT(d.changed.slots == 0 && d.changed.syncs == 0);
    d = by->read_listing(out, 315, out + 400, 13);
    EXPECT(d.place == 0 && d.number == 10 && ALL_ZERO(d));
    d = by->read_listing(out, 314, out + 400, 14);
    EXPECT(d.place == 18 && d.number == 21 && ALL_ZERO(d));
    words[20] = 7; words[21] = 0xC2199DEA;
    d = by->read_words(words + CARD_PREAMBLE_WORDS, 17, out, sizeof out);
    EXPECT(d.place == 0 && d.number == 0 && d.bytes == 0 && d.pages == 0 && d.lost == 1 && d.orphans == 2);
    EXPECT(d.changed.slots == 0 && d.changed.syncs == 0);
}

/* bits changed in the sync, an idle, an orphan and an address; not in the words lost, of which one has the value of sync */
static void changed_bits(const struct engine *by) {
    words[18] ^= 0x00000003; words[19] ^= 0x80000000; words[22] ^= 0x00010001; words[23] = 0x7CD215D9; words[24] = 0x000026EC ^ 0x00000401;
    struct card_reading d = by->read_words(words + CARD_PREAMBLE_WORDS, 17, out, sizeof out);
    EXPECT(d.place == 0 && d.number == 0 && d.bytes == 9 && d.pages == 1 && d.lost == 2 && d.orphans == 2 && memcmp(out, "00000A 0\n", 9) == 0);
    EXPECT(d.changed.slots == 5 && d.changed.syncs == 2);
    d = by->read_words(words + CARD_PREAMBLE_WORDS, 17, out, 8);
    EXPECT(d.place == 0 && d.number == 10 && ALL_ZERO(d));
    d = by->read_words(words + CARD_PREAMBLE_WORDS, 16, out, sizeof out);
    EXPECT(d.place == 0 && d.number == 21 && ALL_ZERO(d));
    d = by->read_words(words, 17 * 301, out, sizeof out);
    EXPECT(d.place == 0 && d.number == 23 && ALL_ZERO(d));
    words[18] = 7;
    d = by->read_words(words + CARD_PREAMBLE_WORDS, 17, out, sizeof out);
    EXPECT(d.place == 1 && d.number == 22 && ALL_ZERO(d));
}

/* what every field holds where an identity is followed, and how much of out is written: 28 bytes from 400 on are lent at most */
#define FOLLOWED(call, p, n, b, l) do { \
        memset(out + 400, 77, 29); \
        struct card_following f = call; \
        EXPECT(f.place == (p) && f.number == (n) && f.bytes == (b) && f.lines == (l)); \
        EXPECT(out[400] == ((b) == 0 ? 77 : '0') && out[400 + (b)] == 77 && out[428] == 77); } while (0)

/* two pages for 00000A, in one batch among others: a tone, and one cut by a lost word; then the one page of a listing */
static void following(void) {
    sending();
    for (int i = 19; i < 35; i++)
        words[i] = 0x7A89C197;
    words[19] = 0x00000ED3; words[22] = 0x000026EC; words[23] = 0x000026EC; words[24] = 0x000026EC ^ 0x80000001;
    words[25] = 0xC2199DEA; words[26] = 7; words[27] = 0x000026EC;
    const uint32_t *batch = words + CARD_PREAMBLE_WORDS;
    FOLLOWED(card_follow_words(0x200000, batch, 17, out + 400, 28), 0, 2, 0, 0);
    FOLLOWED(card_follow_words(0x1EA270, batch, 17, out + 400, 28), 0, 3, 0, 0);
    FOLLOWED(card_follow_words(0x00000A, batch, 16, out + 400, 28), 0, 21, 0, 0);
    FOLLOWED(card_follow_words(0x00000A, words, 17 * 301, out + 400, 28), 0, 23, 0, 0);
    FOLLOWED(card_follow_words(0x00000A, batch + 1, 17, out + 400, 28), 1, 22, 0, 0);
    FOLLOWED(card_follow_words(0x00000A, batch, 17, out + 400, 23), 0, 10, 0, 0);
    FOLLOWED(card_follow_words(0x000012, batch, 17, out + 400, 0), 0, 0, 0, 0);
    FOLLOWED(card_follow_words(0x00000A, batch, 17, out + 400, 28), 0, 0, 24, 2);
    EXPECT(memcmp(out + 400, "00000A 0\n00000A 4 3132-\n", 24) == 0);
    FOLLOWED(card_follow_listing(0x3F3480, out, 315, out + 400, 28), 0, 2, 0, 0);
    FOLLOWED(card_follow_listing(0x1F3480, out, 315, out + 400, 28), 0, 3, 0, 0);
    FOLLOWED(card_follow_listing(0x000009, out, 314, out + 400, 28), 18, 21, 0, 0);
    FOLLOWED(card_follow_listing(0x000009, out, 315, out + 400, 13), 0, 10, 0, 0);
    FOLLOWED(card_follow_listing(0x000001, out, 315, out + 400, 0), 0, 0, 0, 0);
    FOLLOWED(card_follow_listing(0x000009, out, 315, out + 400, 28), 0, 0, 14, 1);
    EXPECT(memcmp(out + 400, job, 14) == 0);
}

/* the bytes of words, as a radio records their bits */
static uint8_t recording[CARD_RECORDING_BYTES + 1];
static size_t record(const uint32_t *from, size_t count) {
    for (size_t i = 0; i < 4 * count; i++)
        recording[i] = (uint8_t)(from[i / 4] >> (24 - i % 4 * 8));
    return 4 * count;
}

/* what a declined receiving answers, and that nothing is written */
#define NOT_RECEIVED(length, room, n) do { \
        memset(out, 77, 64); \
        struct card_receiving c = card_receive(recording, length, out, room); \
        EXPECT(c.place == 0 && c.number == (n) && c.batches == 0 && ALL_ZERO(c) && out[0] == 77 && out[63] == 77); } while (0)

/* three batches of which the last comes a byte late: a sync with two wrong bits, idle with one, an orphan, two lost words, of which one
 * has the value of sync, and a page that the missing sync cuts; and behind the last batch, which has an orphan too, a tone to the end */
static void receiving(void) {
    for (int i = 0; i < 51; i++)
        words[i] = i % 17 == 0 ? 0x7CD215D8 : 0x7A89C197;
    words[0] ^= 0x80000001; words[2] ^= 0x00000100; words[4] = 0xC2199DEA; words[5] = 7; words[6] = 0x7CD215D9;
    words[33] = 0x000026EC; words[35] = 0xC2199DEA; words[50] = 0x00001376;
    size_t length = record(words, 51);
    memmove(recording + 137, recording + 136, 68);
    memset(out, 77, 64);
    struct card_receiving c = card_receive(recording, length + 1, out, 64);
    EXPECT(c.place == 0 && c.number == 0 && c.bytes == 19 && c.batches == 3 && c.pages == 2 && c.lost == 2 && c.orphans == 2);
    EXPECT(c.changed.slots == 1 && c.changed.syncs == 2);
    EXPECT(memcmp(out, "00000F 0-\n000007 2\n", 19) == 0 && out[19] == 77);
    NOT_RECEIVED(length + 1, 18, 10);
    NOT_RECEIVED(CARD_RECORDING_BYTES + 1, 64, 28);
    for (int i = 1; i < 301; i++)
        memcpy(recording + 68 * i, recording, 68);
    NOT_RECEIVED(68 * 301, 64, 23);
    NOT_RECEIVED(CARD_RECORDING_BYTES + 1, 64, 28);
    c = card_receive(recording, 67, out, 0);
    EXPECT(c.place == 0 && c.number == 0 && c.batches == 0 && ALL_ZERO(c));
}

/* a report between two others, which nothing may write */
static struct card_coverage reports[3], *const report = &reports[1];

static void empty_report(void) {
    memset(reports, 77, sizeof reports);
    memset(report, 0, sizeof *report);
}

/* what is answered where the front of out is added to the report */
#define ADDED(length, p, n) do { \
        struct card_refusal r = card_coverage_add(out, length, report); \
        EXPECT(r.place == (p) && r.position == 0 && r.number == (n)); \
        EXPECT(reports[0].pages[7].cut == 0x4D4D4D4D && reports[2].listings == 0x4D4D4D4D); } while (0)

/* the same where it is declined */
#define NOT_ADDED(length, p, n) do { \
        struct card_coverage before = *report; \
        ADDED(length, p, n); \
        EXPECT(memcmp(&before, report, sizeof before) == 0); } while (0)

#define RATE_IS(row, expected) do { \
        struct card_rate rate = card_coverage_rate(report, row); \
        EXPECT(rate.rate == (expected) && rate.remainder == 0); } while (0)

/* writes a word over that of a slot, or over the sync where that is -1, in the listing of one batch that stands in out */
static void put_slot(int slot, uint32_t word) {
    char digits[9];
    sprintf(digits, "%08X", (unsigned)word);
    memcpy(out + 9 * (CARD_PREAMBLE_WORDS + 1 + slot), digits, 8);
}

static const uint32_t flips[] = {0, 0x00000001, 0x80000001, 0x80000003};

/* in every frame idle with no wrong bit up to three, and then a page that such a word ends */
static void covered_frame(int frame, uint32_t bits) {
    const struct card_frame_words *words_of = &report->frames[frame], *others = &report->frames[frame ^ 1];
    const struct card_page_counts *pages_of = &report->pages[frame];
    sending();
    put_slot(2, 0x7A89C197);
    put_slot(3, 0x7A89C197);
    put_slot(2 * frame, 0x7A89C197 ^ flips[bits]);
    empty_report();
    ADDED(315, 0, 0);
    EXPECT(report->listings == 1 && report->refused[0] == 0 && report->refused[1] == 0 && report->refused[2] == 0);
    EXPECT(words_of->unchanged == (bits == 0 ? 2u : 1u) && words_of->one == (bits == 1) && words_of->two == (bits == 2) && words_of->lost == (bits == 3));
    EXPECT(others->unchanged == 2 && others->one == 0 && others->two == 0 && others->lost == 0);
    EXPECT(report->sync.unchanged == 1 && report->sync.one == 0 && report->sync.two == 0 && pages_of->whole == 0 && pages_of->cut == 0);
    RATE_IS((uint32_t)frame, bits == 1 ? 15625 : bits == 2 ? 31250 : 0);
    put_slot(2 * frame, 0x000026EC);
    put_slot(2 * frame + 1, 0x7A89C197 ^ flips[bits]);
    ADDED(315, 0, 0);
    EXPECT(report->listings == 2 && pages_of->whole == (bits < 3) && pages_of->cut == (bits == 3));
    EXPECT(report->pages[frame ^ 1].whole == 0 && report->pages[frame ^ 1].cut == 0);
}

/* a sync with no wrong bit up to three, with which its listing is refused; other refusals, and a report that is declined */
static void covered_sync(uint32_t bits) {
    sending();
    put_slot(-1, 0x7CD215D8 ^ flips[bits]);
    empty_report();
    ADDED(315, 0, 0);
    EXPECT(report->sync.unchanged == (bits == 0) && report->sync.one == (bits == 1) && report->sync.two == (bits == 2));
    EXPECT(report->listings == 1 && report->refused[1] == (bits == 3) && report->frames[7].unchanged == (bits < 3 ? 2u : 0u));
    RATE_IS(CARD_SYNC_ROW, bits == 1 ? 31250 : bits == 2 ? 62500 : 0);
    ADDED(314, 0, 0);
    EXPECT(report->listings == 2 && report->refused[0] == 1 && report->refused[2] == 0 && report->frames[7].unchanged == (bits < 3 ? 2u : 0u));
    report->pages[7].cut = 1201;
    NOT_ADDED(315, 0, 11);
    report->pages[7].cut = 1200;
    ADDED(315, 0, 0);
    report->listings = 1000;
    NOT_ADDED(315, 1001, 23);
    report->listings = 1001;
    NOT_ADDED(314, 0, 11);
}

static void covering(void) {
    for (uint32_t bits = 0; bits < 4; bits++) {
        for (int frame = 0; frame < 8; frame++)
            covered_frame(frame, bits);
        covered_sync(bits);
    }
}

int main(void) {
    start();
    with_book();
    limits();
    pause_slot();
    for (int i = 0; i < 2; i++) {
        single_words(&engines[i]);
        sending();
        reading(&engines[i]);
        changed_bits(&engines[i]);
    }
    following();
    receiving();
    covering();
    return wrong;
}
