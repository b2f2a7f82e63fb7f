/* Jobs declined, then one sent whole, with a phrase book, sent again word by word, and read back with some wrong bits; one word corrected
 * by both engines; the lines of a single pager, as its desk receiver has them; all lines again from a radio's recording; and two listings
 * in numbers.
 *
 * Build and run it in the repository's folder, once `tools/build` has made the archive:
 *     gcc -Wall -Wextra tests/c/example.c -Iinclude target/staticlib/libcard.a -o target/example && target/example
 * It prints the page lines in the order of their slots, then those of one pager, then all once more, then a few numbers, and ends with
 * status 0 where all agrees. */
#include "spuggenor.h"
#include <stdio.h>
#include <string.h>

static uint32_t words[CARD_WORDS], slots[CARD_PAGES];
static uint8_t lines[CARD_LINES_BYTES], recording[CARD_RECORDING_BYTES], received[CARD_RECEIVED_BYTES], listing[CARD_LISTING_BYTES];
static struct card_sender state;
static struct card_coverage month; /* of zeros, as it must be to begin with */

/* "12" to pager 000009, "HELLO" to pager 000010, a tone with function 2 to pager 00000F, the phrase 01 to pager 000014 */
static const char job[] = "000009 4 3132\n000010 5 48454C4C4F\n00000F 2\n000014 9 01\n";

/* the same with a mistake: the third character of the first text is no numeric one */
static const char mistaken[] = "000009 4 313241\n000010 5 48454C4C4F\n00000F 2\n000014 9 01\n";

/* two phrases: "OK" and "COME" */
static const char book[] = "4F4B\n434F4D45\n";

/* whether work is declined; says why, with the position where the number has one */
static int refused(uint32_t number, size_t place, size_t position) {
    if (number == 0)
        return 0;
    printf("refused %u place %lu", number, (unsigned long)place);
    if (number == CARD_REFUSED_CHARACTER)
        printf(" %lu", (unsigned long)position);
    printf("\n");
    return 1;
}

/* corrects a word by both engines, which must agree */
static int corrected(uint32_t word) {
    struct card_word fast = card_correct(word), slow = card_correct_slowly(word);
    if (slow.word != fast.word || slow.number != fast.number || slow.changed != fast.changed) {
        printf("the engines differ on %08X\n", word);
        return 0;
    }
    printf("both engines correct %08X to %08X\n", word, slow.word);
    return 1;
}

/* records words as a radio gives their bits, first bit on top, three bits late: how many bytes that takes */
static size_t record(const uint32_t *sent, size_t count) {
    size_t bits = 3;
    for (size_t i = 0; i < 32 * count; i++, bits++)
        if (sent[i / 32] >> (31 - i % 32) & 1)
            recording[bits / 8] |= (uint8_t)(0x80 >> bits % 8);
    return (bits + 7) / 8;
}

/* writes a word over one of the listing's, each of which takes nine bytes */
static void put_word(size_t at, uint32_t word) {
    char digits[9];
    sprintf(digits, "%08X", word);
    memcpy(listing + 9 * at, digits, 8);
}

/* the month's mended bits per million; whether they are this many bits of this many words */
static int is_rate(const char *what, uint32_t row, uint64_t mended, uint64_t count) {
    struct card_rate r = card_coverage_rate(&month, row);
    printf("%s: %lu mended bits per million, remainder %lu\n", what, (unsigned long)r.rate, (unsigned long)r.remainder);
    return r.rate * 32 * count + r.remainder == 1000000 * mended && r.remainder < 32 * count;
}

int main(void) {
    const uint8_t *text = (const uint8_t *)job, *phrases = (const uint8_t *)book;
    size_t length = strlen(job), phrases_length = strlen(book);

    struct card_report sent =
        card_send((const uint8_t *)mistaken, strlen(mistaken), phrases, phrases_length, words, CARD_WORDS, slots, CARD_PAGES);
    if (!refused(sent.number, sent.place, sent.position))
        return 1;
    /* without a book there is no kind 9 */
    sent = card_send(text, length, NULL, 0, words, CARD_WORDS, slots, CARD_PAGES);
    if (!refused(sent.number, sent.place, sent.position))
        return 1;
    sent = card_send(text, length, phrases, phrases_length, words, CARD_WORDS, slots, CARD_PAGES);
    if (refused(sent.number, sent.place, sent.position))
        return 1;
    printf("%u batches, %u words, address slots %u %u %u %u\n", sent.batches, sent.words, slots[0], slots[1], slots[2], slots[3]);

    struct card_refusal refusal = card_start(text, length, phrases, phrases_length, &state);
    if (refused(refusal.number, refusal.place, refusal.position))
        return 1;
    uint32_t steps = 0;
    for (;;) {
        struct card_step_answer next = card_step(&state);
        if (next.number != 0) {
            printf("step %u: refused %u\n", steps, next.number);
            return 1;
        }
        if (next.done)
            break;
        if (steps >= sent.words || next.word != words[steps]) {
            printf("step %u gives %08X\n", steps, next.word);
            return 1;
        }
        steps++;
    }
    if (steps != sent.words) {
        printf("%u steps, %u words\n", steps, sent.words);
        return 1;
    }
    printf("%u steps give the same words\n", steps);

    /* one wrong bit in the first sync, two in the first slot */
    words[CARD_PREAMBLE_WORDS] ^= 0x00000001;
    words[CARD_PREAMBLE_WORDS + 1] ^= 0x80000010;
    if (!corrected(words[CARD_PREAMBLE_WORDS + 1]))
        return 1;
    struct card_reading read = card_read_words(words + CARD_PREAMBLE_WORDS, sent.words - CARD_PREAMBLE_WORDS, lines, CARD_LINES_BYTES);
    if (refused(read.number, read.place, 0))
        return 1;
    printf("%u pages, %u lost, %u orphans\n", read.pages, read.lost, read.orphans);
    printf("%u bits changed in the slots, %u in the syncs\n", read.changed.slots, read.changed.syncs);
    fwrite(lines, 1, read.bytes, stdout);

    /* the desk receiver of pager 000010 */
    struct card_following followed =
        card_follow_words(0x000010, words + CARD_PREAMBLE_WORDS, sent.words - CARD_PREAMBLE_WORDS, lines, CARD_LINES_BYTES);
    if (refused(followed.number, followed.place, 0))
        return 1;
    printf("%u for 000010\n", followed.lines);
    fwrite(lines, 1, followed.bytes, stdout);

    /* all words, preamble first, with the same wrong bits, as a radio records them */
    struct card_receiving heard = card_receive(recording, record(words, sent.words), received, CARD_RECEIVED_BYTES);
    if (refused(heard.number, heard.place, 0))
        return 1;
    printf("%u batches and %u pages received\n", heard.batches, heard.pages);
    fwrite(received, 1, heard.bytes, stdout);
    if (heard.batches != sent.batches || heard.pages != read.pages || heard.bytes != read.bytes)
        return 1;

    /* a month of two listings: the job's, and the same with the wrong bits */
    struct card_bytes listed = card_list(text, length, phrases, phrases_length, listing, CARD_LISTING_BYTES);
    if (refused(listed.number, listed.place, listed.position))
        return 1;
    for (int i = 0; i < 2; i++) {
        refusal = card_coverage_add(listing, listed.bytes, &month);
        if (refused(refusal.number, refusal.place, refusal.position))
            return 1;
        put_word(CARD_PREAMBLE_WORDS, words[CARD_PREAMBLE_WORDS]);
        put_word(CARD_PREAMBLE_WORDS + 1, words[CARD_PREAMBLE_WORDS + 1]);
    }
    printf("%u listings, %u refused, %u pages in frame 0\n", month.listings, month.refused[0] + month.refused[1] + month.refused[2],
           month.pages[0].whole + month.pages[0].cut);
    return !is_rate("frame 0", 0, 2, 4 * sent.batches) || !is_rate("sync", CARD_SYNC_ROW, 1, 2 * sent.batches);
}
