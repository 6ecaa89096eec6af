/* How much stack each call of include/ring.h takes: the call runs on a stack of its own that was painted before, and the lowest byte that lost
   its paint tells how deep the call went. Each call is made on small and full tables, until it has been accepted and refused by each of its
   numbers, and its deepest use is printed: 'ring_x BYTES', a line a call. tests/c/run holds the lines to the header's table. */

#define _XOPEN_SOURCE 700
#include "layout.h"
#include "ring.h"
#include <stdio.h>
#include <stdlib.h>
#include <string.h>
#include <ucontext.h>

enum { STACK = 1 << 16, PAINT = 0xa5, CALLS = 21, ALIKE = 9, HELD = 14, PRINCIPAL = 15, ROUND = 16, SETTLE = 17, KEYS = 100000 };
enum { IS_OPEN = 18, NEXT_OPEN = 19, SETTLE_AT = 20, WINDOWS = 2 * RING_WINDOWS_MOST };

static const char *const names[CALLS] = {"ring_new",        "ring_join",        "ring_stabilize",  "ring_rectify",    "ring_fail",
                                         "ring_leave",      "ring_lookup",      "ring_audit",      "ring_findings",   "ring_alike",
                                         "ring_take_over",  "ring_image_write", "ring_image_read", "ring_image_field", "ring_held",
                                         "ring_principal",  "ring_round",       "ring_settle",     "ring_is_open",    "ring_next_open",
                                         "ring_settle_at"};

/* The numbers that each call can answer, a bit each. */
#define BIT(n) (1u << (n))
static const uint32_t numbers[CALLS] = {
    BIT(0) | BIT(10) | BIT(11), /* new */
    BIT(0) | BIT(1) | BIT(2) | BIT(3) | BIT(4) | BIT(5) | BIT(13),
    BIT(0) | BIT(1) | BIT(3), /* stabilize */
    BIT(0) | BIT(1) | BIT(3),
    BIT(0) | BIT(1) | BIT(3), /* fail */
    BIT(0) | BIT(1) | BIT(3) | BIT(6) | BIT(7),
    BIT(0) | BIT(1) | BIT(3) | BIT(8), /* lookup */
    BIT(0) | BIT(1),
    BIT(0) | BIT(1) | BIT(10), /* findings */
    BIT(0) | BIT(1),
    BIT(0), /* take_over */
    BIT(0) | BIT(1) | BIT(10),
    BIT(0) | BIT(9) | BIT(10), /* image_read */
    BIT(0) | BIT(9),
    BIT(0) | BIT(1) | BIT(3) | BIT(12), /* held */
    BIT(0) | BIT(1) | BIT(3),
    BIT(0) | BIT(1) | BIT(14), /* round */
    BIT(0) | BIT(1) | BIT(14),
    BIT(0) | BIT(15), /* is_open */
    BIT(0) | BIT(15),
    BIT(0) | BIT(1) | BIT(14) | BIT(15) | BIT(16), /* settle_at */
};

static unsigned char painted[STACK];
static ucontext_t back, there;
static size_t deepest[CALLS];
static uint32_t met[CALLS], replies; /* the numbers answered; the replies of stabilize: again, look, done */
static uint32_t held_runs;           /* one run, two runs */
static uint32_t principals;          /* not a principal, a principal */
static uint32_t alikes;              /* no, yes */
static uint32_t verdicts;            /* of a round: 1, 2 */
static uint32_t most_rounds;         /* that a settle ran */
static uint32_t opens, nexts;        /* closed, open; none, a minute */
static uint32_t most_at;             /* rounds that a settle with windows ran */

static uint32_t table[RING_TABLE_WORDS(RING_R_MOST, RING_MEMBERS_MOST + 1)], other[RING_TABLE_WORDS_MOST];
static uint8_t image[RING_IMAGE_BYTES_MOST];
static struct ring_finding findings[256];
static uint32_t ids[256], keys[KEYS]; /* the keys are minutes too */
static uint32_t windows[WINDOWS + 2]; /* one more than may be lent */
static size_t words = RING_TABLE_WORDS_MOST;

/* What the call on the painted stack is to do, and what it answered. */
static int call;
static uint32_t r, a, b;
static size_t count, bytes, at, window_words;
static volatile uintptr_t top;
static struct ring_answer answer;
static struct ring_runs runs;

static struct ring_answer make(void)
{
    switch (call) {
    case 0: return ring_new(table, words, r, ids, count);
    case 1: return ring_join(table, words, a, b);
    case 2: return ring_stabilize(table, words, a);
    case 3: return ring_rectify(table, words, a, b);
    case 4: return ring_fail(table, words, a);
    case 5: return ring_leave(table, words, a);
    case 6: return ring_lookup(table, words, a, b);
    case 7: return ring_audit(table, words);
    case 8: return ring_findings(table, words, findings, count);
    case ALIKE: return ring_alike(table, words, other, words);
    case 10: return ring_take_over(a, b, r, ids, count, ids, count);
    case 11: return ring_image_write(table, words, image, bytes);
    case 12: return ring_image_read(other, words, image, bytes);
    case PRINCIPAL: return ring_principal(table, words, a);
    case ROUND: return ring_round(table, words);
    case SETTLE: return ring_settle(table, words, a);
    case IS_OPEN: return ring_is_open(windows, window_words, a);
    case NEXT_OPEN: return ring_next_open(windows, window_words, a);
    case SETTLE_AT: return ring_settle_at(table, words, windows, window_words, keys, count);
    default: return ring_image_field(image, bytes, at);
    }
}

static struct ring_runs make_held(void)
{
    return ring_held(table, words, a, keys, count);
}

/* The caller's own frame lies above `top`; what the call takes, its return address included, lies below. */
static void on_painted(void)
{
    volatile char here = 0;
    top = (uintptr_t)&here;
    answer = make();
}

/* The same for the call that answers runs. */
static void held_on_painted(void)
{
    volatile char here = 0;
    top = (uintptr_t)&here;
    runs = make_held();
}

/* Makes the call and keeps its depth. */
static void run(int c)
{
    size_t low, used;
    call = c;
    memset(painted, PAINT, sizeof painted);
    if (getcontext(&there) != 0) exit(2);
    there.uc_stack.ss_sp = painted;
    there.uc_stack.ss_size = sizeof painted;
    there.uc_link = &back;
    makecontext(&there, c == HELD ? held_on_painted : on_painted, 0);
    if (swapcontext(&back, &there) != 0) exit(2);
    for (low = 0; low < sizeof painted && painted[low] == PAINT;) low++;
    used = (size_t)(top - (uintptr_t)&painted[low]);
    if (low == 0 || used > sizeof painted) {
        printf("%s: more than the painted stack\n", names[c]);
        exit(1);
    }
    if (used > deepest[c]) deepest[c] = used;
    met[c] |= BIT(c == HELD ? runs.number : answer.number);
    if (c == 2 && answer.number == RING_OK) replies |= BIT(answer.values[0]);
    if (c == HELD && runs.number == RING_OK) held_runs |= BIT(runs.runs);
    if (c == PRINCIPAL && answer.number == RING_OK) principals |= BIT(answer.values[0]);
    if (c == ALIKE && answer.number == RING_OK) alikes |= BIT(answer.values[0]);
    if (c == ROUND && answer.number == RING_OK) verdicts |= BIT(answer.values[0]);
    if (c == SETTLE && answer.number == RING_OK && answer.values[0] > most_rounds) most_rounds = answer.values[0];
    if (c == IS_OPEN && answer.number == RING_OK) opens |= BIT(answer.values[0]);
    if (c == NEXT_OPEN && answer.number == RING_OK) nexts |= BIT(answer.values[0]);
    if (c == SETTLE_AT && answer.number == RING_OK && answer.values[0] > most_at) most_at = answer.values[0];
}

static void on(uint32_t of_r, size_t members, uint32_t gap)
{
    size_t i;
    for (i = 0; i < 256; i++) ids[i] = (uint32_t)i * gap;
    r = of_r, count = members;
    run(0);
}

/* The lowest member, the last and one that is none, with so many keys: rising, and with the last two equal. */
static void held(size_t of, uint32_t last)
{
    count = of;
    a = 0, run(HELD);
    a = last, run(HELD);
    a = 1, run(HELD);
    if (of < 2) return;
    keys[of - 1]--, a = last, run(HELD);
    keys[of - 1]++;
}

/* A ring in which every second member but the first few was lost, a dead candidate is pending and a predecessor is dead. */
static void churned(uint32_t of_r, size_t members, uint32_t gap)
{
    size_t i;
    on(of_r, members, gap);
    for (i = of_r + 2; i < members; i += 2) a = (uint32_t)i * gap, run(5);
    set_pending(table, 0, 1, 1); /* its candidate dead */
    record_at(table, 1)[RING_PREDECESSOR] = 1;
}

/* Settle with windows, so many words of them, at no minute, at two and at many. */
static void settled_at(size_t of)
{
    window_words = of;
    count = 0, run(SETTLE_AT);
    count = 2, run(SETTLE_AT);
    count = KEYS, run(SETTLE_AT);
}

/* A round, settle with each sort of limit, and with windows: none, one, 16, 17, and minutes that do not rise; on such a ring, on an ideal one, and on
   a table that is not sound. */
static void settled(uint32_t of_r, size_t members, uint32_t gap)
{
    size_t i;
    on(of_r, members, gap);
    a = 0, run(SETTLE);
    a = 255, run(SETTLE);
    settled_at(WINDOWS);
    churned(of_r, members, gap);
    run(ROUND);
    a = 0, run(SETTLE);
    a = 1, run(SETTLE);
    a = UINT32_MAX, run(SETTLE);
    run(ROUND);
    churned(of_r, members, gap);
    settled_at(0), settled_at(1), settled_at(WINDOWS + 2);
    settled_at(WINDOWS);
    churned(of_r, members, gap);
    keys[KEYS - 1]--, settled_at(2), keys[KEYS - 1]++;
    settled_at(2);
    for (i = 0; i < of_r; i++) record_at(table, 0)[RING_LIST + i] = 3;
    run(ROUND);
    run(SETTLE);
    settled_at(WINDOWS);
}

/* Both calls of windows alone, with so many words of them: minutes within and without, round the week's end, and one that is none. */
static void opened(size_t of)
{
    window_words = of;
    for (a = 0; a <= RING_WEEK; a += 90) run(IS_OPEN), run(NEXT_OPEN);
    a = RING_WEEK - 1, run(IS_OPEN), run(NEXT_OPEN);
}

/* Alike of table and of other, which has one word of the record at a place another, each in turn. */
static void unlike(size_t place)
{
    uint32_t *const record = record_at(other, place);
    size_t i;
    for (i = 0; i < RING_RECORD_WORDS(other[RING_R]); i++) {
        record[i]++, run(ALIKE);
        record[i]--;
    }
}

/* Every call on a ring of so many members; ends with a table that is none. */
static void every(uint32_t of_r, size_t members)
{
    const uint32_t gap = 1000, last = (uint32_t)(members - 1) * gap;
    const size_t field = RING_IMAGE_BYTES(of_r, 1) - RING_IMAGE_BYTES(of_r, 0);
    int c;
    on(of_r, 1, gap);
    words = RING_HEADER_WORDS, on(of_r, members, gap);
    words = RING_TABLE_WORDS_MOST, on(of_r, members, gap);
    run(7);
    count = 256, run(8);
    count = 0, run(8);
    bytes = 0, run(11);
    bytes = sizeof image, run(11);
    bytes = RING_IMAGE_BYTES(of_r, members), run(12);
    words = RING_HEADER_WORDS, run(12);
    words = RING_TABLE_WORDS_MOST, run(ALIKE);
    unlike(0), unlike(members - 1);
    for (at = 0; at <= bytes; at += at == 0 ? IMAGE_MEMBERS : field) run(13);
    at = 1, run(13);
    bytes--, run(12);
    a = 0, b = last, run(6);
    a = 0, b = 1, run(6);
    a = 1, run(6);
    held(0, last), held(1, last), held(2, last), held(KEYS, last);
    a = 0, run(PRINCIPAL);
    a = last, run(PRINCIPAL);
    a = 1, run(PRINCIPAL);
    a = 1, b = 0, run(1);  /* accepted, or 5 on a full table */
    a = 1, run(PRINCIPAL); /* then skipped, or no member */
    a = last, run(PRINCIPAL);
    a = 0, b = 0, run(1);
    a = 2, b = 3, run(1);
    a = last + 1, b = 0, run(1);
    words = RING_TABLE_WORDS(of_r, members + 1), a = last + 1, b = last, run(1);
    words = RING_TABLE_WORDS_MOST;
    a = 1, run(2);
    a = gap, b = 1, run(3);
    a = gap, b = 0, run(3);
    a = 1, b = 0, run(3);
    for (a = 0; a <= last; a += gap) run(2);
    for (a = 0; a <= last; a += gap) run(2);
    a = gap, run(5);
    a = 3, run(5);
    for (a = 0; a <= last; a += gap) run(5);
    a = last, run(4);
    a = 3, run(4);
    for (a = 0; a <= last; a += gap) run(2);
    for (a = gap; a <= last; a += gap) run(4);
    a = 0, b = 1, run(6);
    run(7);
    count = 256, run(8);
    on(of_r, members, gap);
    record_at(table, 0)[RING_LIST] = 2, a = 1, b = 0, run(1);                     /* 13: a dead first entry */
    words = RING_TABLE_WORDS(of_r, members), run(1);                                /* 13, without room too */
    a = 3, run(1);                                                                  /* 4, though it is dead */
    words = RING_TABLE_WORDS_MOST;
    record_at(table, members - 1)[RING_LIST] = 1, a = last + 1, b = last, run(1); /* 13, round the end */
    settled(of_r, members, gap);
    a = 10, b = 30, r = 20, count = 256, run(10);
    r = 40, count = 0, run(10);
    table[RING_R] = 9, count = 256, bytes = sizeof image, a = 0, b = 0;
    for (c = 1; c <= 11; c++) run(c);
    run(PRINCIPAL), run(ROUND), run(SETTLE);
    settled_at(0), settled_at(WINDOWS);
    count = KEYS, run(HELD);
}

int main(void)
{
    uint32_t of_r, i;
    int c, missing = 0;
    for (i = 0; i < KEYS; i++) keys[i] = i;
    for (i = 0; i < WINDOWS + 2; i++) windows[i] = 5 + i * 300; /* five hours each, and so many between them */
    windows[WINDOWS - 1] = 2;                                   /* over the week's end */
    for (i = 0; i <= WINDOWS + 2; i++) opened(i);
    for (of_r = 1; of_r <= 8; of_r++) {
        every(of_r, of_r + 1);
        every(of_r, 255);
        every(of_r, 256);
    }
    for (c = 0; c < CALLS; c++) {
        printf("%s %lu\n", names[c], (unsigned long)deepest[c]);
        if (met[c] != numbers[c]) {
            printf("%s: the numbers %x were met, and not %x\n", names[c], met[c], numbers[c]);
            missing = 1;
        }
    }
    if (replies != (BIT(0) | BIT(1) | BIT(2))) {
        printf("ring_stabilize: the replies %x were met\n", replies);
        missing = 1;
    }
    if (held_runs != (BIT(1) | BIT(2))) {
        printf("ring_held: the runs %x were met\n", held_runs);
        missing = 1;
    }
    if (principals != (BIT(0) | BIT(1))) {
        printf("ring_principal: the replies %x were met\n", principals);
        missing = 1;
    }
    if (alikes != (BIT(0) | BIT(1))) {
        printf("ring_alike: the replies %x were met\n", alikes);
        missing = 1;
    }
    if (verdicts != (BIT(1) | BIT(2)) || most_rounds < 3) {
        printf("ring_round: the verdicts %x were met; ring_settle: at most %u rounds\n", verdicts, (unsigned)most_rounds);
        missing = 1;
    }
    if (opens != (BIT(0) | BIT(1)) || nexts != (BIT(0) | BIT(1)) || most_at < 3) {
        printf("ring_is_open, ring_next_open: the replies %x and %x were met; ring_settle_at: at most %u rounds\n", opens, nexts, (unsigned)most_at);
        missing = 1;
    }
    return missing;
}
