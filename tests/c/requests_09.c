/* Document 02's Req 09, service hours, as requests.c and requests_07.c have the requests before it. */

#include "firmware.h"
#include "check.h"
#include "layout.h"

/* Tables to try things on and to compare with; many identifiers; half hours, from minute 0 on. */
enum { HALF_HOURS = 1344 };
static uint32_t other[RING_TABLE_WORDS_MOST], kept[RING_TABLE_WORDS_MOST], single[RING_TABLE_WORDS_MOST], limited[RING_TABLE_WORDS_MOST];
static uint32_t many[RING_MEMBERS_MOST], half_hours[HALF_HOURS];
static const size_t words = RING_TABLE_WORDS_MOST;
static const uint32_t ids[] = {10, 20, 30, 40};

/* The header's week, which begins on Monday at 0:00: the nights of the working days, 22:00 to 6:00, and Saturday 20:00 to Monday 6:00. Then a week
   that is open throughout, and 17 windows, the first 16 of which may be lent: an hour each, the second and third overlapping, the last over the
   week's end. */
static const uint32_t hours[12] = {1320, 1800, 2760, 3240, 4200, 4680, 5640, 6120, 7080, 7560, 8400, 360}, always[4] = {0, 1, 1, 0};
static const uint32_t most[2 * RING_WINDOWS_MOST + 2] = {100,  160,  700,  760,  730,  790,  1300, 1360, 1900, 1960, 2500, 2560,
                                                         3100, 3160, 3700, 3760, 4300, 4360, 4900, 4960, 5500, 5560, 6100, 6160,
                                                         6700, 6760, 7300, 7360, 8000, 8060, 10050, 30,  9000, 9060};

/* A list in place: its start and its length. */
#define LIST(...) (const uint32_t[]){__VA_ARGS__}, sizeof((const uint32_t[]){__VA_ARGS__}) / sizeof(uint32_t)
#define WEEK hours, 12
#define ALWAYS always, 4
#define NEVER always, 0

/* The next open minute after t, counted from a week's start, as the header says. Some window is there. */
static uint32_t next_after(const uint32_t *windows, size_t size, uint32_t t)
{
    const uint32_t m = (t + 1) % RING_WEEK, n = ring_next_open(windows, size, m).values[1];
    return t + 1 + (n + RING_WEEK - m) % RING_WEEK;
}

/* Single rounds at the open minutes of a list, up to the first at which the verdict is 2. Returns how many. */
static uint32_t rounds_at(uint32_t *table, const uint32_t *windows, size_t size, const uint32_t *minutes, size_t count)
{
    uint32_t rounds = 0;
    size_t i;
    for (i = 0; i < count; i++) {
        if (ring_is_open(windows, size, minutes[i] % RING_WEEK).values[0] == 0) continue;
        if (ring_audit(table, words).values[3] == RING_VERDICT_IDEAL) break;
        if (ring_round(table, words).number == RING_OK) rounds++;
    }
    return rounds;
}

/* How many minutes of a list are open. */
static uint32_t open_in(const uint32_t *windows, size_t size, const uint32_t *minutes, size_t count)
{
    uint32_t open = 0;
    size_t i;
    for (i = 0; i < count; i++) open += ring_is_open(windows, size, minutes[i] % RING_WEEK).values[0];
    return open;
}

/* The ring of 104 shelves of which every second was withdrawn: 52 are left, each of which passes an entry over, and two rounds settle them. */
static void every_second_goes(uint32_t *to, const uint32_t *table)
{
    size_t i;
    memcpy(to, table, sizeof other);
    for (i = 0; i < 52; i++) ring_leave(to, words, id_at(to, i));
}

/* The ring that takes longest, 255 rounds: three shelves, and 253 have joined by the highest of them. */
static void slowest(uint32_t *to)
{
    uint32_t j;
    count_up(many, 3, 1), memset(to, 0, sizeof other), ring_new(to, words, 2, many, 3);
    for (j = 3; j < 256; j++) ring_join(to, words, j, 2);
}

/* For how many minutes of the week do both calls answer as a walk through the windows, minute by minute, tells? */
static uint32_t as_walked(const uint32_t *windows, size_t size)
{
    static unsigned char open[RING_WEEK];
    uint32_t m, next = RING_WEEK, told = 0;
    size_t i;
    memset(open, 0, sizeof open);
    for (i = 0; i < size; i += 2)
        for (m = windows[i]; m != windows[i + 1]; m = (m + 1) % RING_WEEK) open[m] = 1;
    for (m = RING_WEEK; m-- > 0;)
        if (open[m]) next = m;
    for (m = RING_WEEK; m-- > 0;) { /* next is the first after m, going round */
        const struct ring_answer is = {RING_OK, {open[m], 0, 0, 0}, 1}, none = {RING_OK, {0, 0, 0, 0}, 1};
        struct ring_answer then = {RING_OK, {1, 0, 0, 0}, 2}, a, b;
        if (open[m]) next = m;
        then.values[1] = next;
        a = ring_is_open(windows, size, m), b = ring_next_open(windows, size, m);
        told += memcmp(&a, &is, sizeof a) == 0 && memcmp(&b, next == RING_WEEK ? &none : &then, sizeof b) == 0;
    }
    return told;
}

/* The header's example; windows at the week's ends, of one minute, of all but one; none; 16, with two that overlap; and the same window twice. */
static void weeks(void)
{
    const uint32_t open[] = {1320, 1799, 10079, 0, 359}, closed[] = {1319, 1800, 360};
    size_t i;
    for (i = 0; i < 5; i++) expect("open", ring_is_open(WEEK, open[i]), RING_OK, 1, 1, 0, 0, 0);
    for (i = 0; i < 3; i++) expect("closed", ring_is_open(WEEK, closed[i]), RING_OK, 1, 0, 0, 0, 0);
    expect("after Monday 6:00", ring_next_open(WEEK, 360), RING_OK, 2, 1, 1320, 0, 0);
    expect("an open one", ring_next_open(WEEK, 1799), RING_OK, 2, 1, 1799, 0, 0);
    expect("after Saturday 6:00", ring_next_open(WEEK, 7560), RING_OK, 2, 1, 8400, 0, 0);
    expect_true("Monday 22:00 a week later", 11400 % RING_WEEK == 1320 && next_after(WEEK, RING_WEEK + 359) == 11400);
    expect("no window", ring_is_open(NEVER, 0), RING_OK, 1, 0, 0, 0, 0);
    expect("none", ring_next_open(NEVER, 10079), RING_OK, 1, 0, 0, 0, 0);
    expect("round the week's end", ring_next_open(LIST(5, 7), 7), RING_OK, 2, 1, 5, 0, 0);
    expect("to minute 0", ring_next_open(LIST(0, 1), 10079), RING_OK, 2, 1, 0, 0, 0);
    expect("the last minute", ring_next_open(LIST(10079, 0), 0), RING_OK, 2, 1, 10079, 0, 0);
    expect_true("the header's week", as_walked(WEEK) == RING_WEEK);
    expect_true("never", as_walked(NEVER) == RING_WEEK);
    expect_true("always", as_walked(ALWAYS) == RING_WEEK);
    expect_true("16 windows", as_walked(most, 2 * RING_WINDOWS_MOST) == RING_WEEK);
    expect_true("the first minute", as_walked(LIST(0, 1)) == RING_WEEK);
    expect_true("the last", as_walked(LIST(10079, 0)) == RING_WEEK);
    expect_true("all but the first", as_walked(LIST(1, 0)) == RING_WEEK);
    expect_true("all but the last", as_walked(LIST(0, 10079)) == RING_WEEK);
    expect_true("all but one over the week's end", as_walked(LIST(5000, 4999)) == RING_WEEK);
    expect_true("one within another, and again", as_walked(LIST(9000, 100, 9500, 50, 9000, 100, 20, 30)) == RING_WEEK);
}

/* All three calls are refused by 15, for their windows. */
static void expect_15(const char *what, const uint32_t *windows, size_t size)
{
    const uint32_t one = 0;
    expect(what, ring_is_open(windows, size, 0), RING_BAD_WINDOWS, 0, 0, 0, 0, 0);
    expect(what, ring_next_open(windows, size, 0), RING_BAD_WINDOWS, 0, 0, 0, 0, 0);
    expect(what, ring_settle_at(other, words, windows, size, &one, 1), RING_BAD_WINDOWS, 0, 0, 0, 0, 0);
}

/* 15, of a sound table: how many windows, and each of their ends; of the first two calls the minute too. */
static void windows_refused(const uint32_t *table)
{
    uint32_t last[2 * RING_WINDOWS_MOST];
    every_second_goes(other, table), memcpy(kept, other, sizeof kept);
    expect_15("17 windows", most, 2 * RING_WINDOWS_MOST + 2);
    expect_15("16 and a word", most, 2 * RING_WINDOWS_MOST + 1);
    expect_15("15 and a word", most, 2 * RING_WINDOWS_MOST - 1);
    expect_15("one word", most, 1);
    expect_15("three", most, 3);
    expect_15("equal ends", LIST(5, 5));
    expect_15("equal ends, 0", LIST(0, 0));
    expect_15("equal ends, the last minute", LIST(10079, 10079));
    expect_15("equal ends behind a window", LIST(0, 9, 5, 5));
    expect_15("an end of 10080", LIST(0, 10080));
    expect_15("a start of 10080", LIST(10080, 5));
    expect_15("an end of 4294967295", LIST(0, 4294967295u));
    expect_15("a start of 4294967295", LIST(4294967295u, 0));
    memcpy(last, most, sizeof last), last[2 * RING_WINDOWS_MOST - 1] = 10080;
    expect_15("the last of 16", last, 2 * RING_WINDOWS_MOST);
    expect_same("writes nothing", kept, other);
    expect("minute 10080 is none", ring_is_open(ALWAYS, 10080), RING_BAD_WINDOWS, 0, 0, 0, 0, 0);
    expect("nor has it a next one", ring_next_open(ALWAYS, 10080), RING_BAD_WINDOWS, 0, 0, 0, 0, 0);
    expect("the largest number", ring_is_open(NEVER, 4294967295u), RING_BAD_WINDOWS, 0, 0, 0, 0, 0);
    expect("nor that", ring_next_open(NEVER, 4294967295u), RING_BAD_WINDOWS, 0, 0, 0, 0, 0);
    expect("in a list it is minute 0", ring_settle_at(other, words, LIST(0, 1), LIST(10079, 10080, 10081)), RING_OK, 3, 1, RING_VERDICT_SOUND, 52, 0);
}

/* 16; then 1 before 15 before 16 before 14, each where the ones after it would apply too. */
static void minutes_refused(const uint32_t *table)
{
    const size_t cut = RING_TABLE_WORDS(2, 52) - 1;
    every_second_goes(other, table), memcpy(kept, other, sizeof kept);
    expect("equal minutes", ring_settle_at(other, words, WEEK, LIST(1320, 1320)), RING_BAD_MINUTES, 0, 0, 0, 0, 0);
    expect("falling ones", ring_settle_at(other, words, WEEK, LIST(1320, 1319)), RING_BAD_MINUTES, 0, 0, 0, 0, 0);
    expect("falling at last", ring_settle_at(other, words, WEEK, LIST(0, 1, 2, 3, 4, 5, 3)), RING_BAD_MINUTES, 0, 0, 0, 0, 0);
    expect("by their remainder they rise", ring_settle_at(other, words, WEEK, LIST(10080, 1, 2)), RING_BAD_MINUTES, 0, 0, 0, 0, 0);
    expect("the largest number", ring_settle_at(other, words, WEEK, LIST(4294967295u)), RING_BAD_MINUTES, 0, 0, 0, 0, 0);
    expect("at last", ring_settle_at(other, words, WEEK, LIST(0, 4294967294u, 4294967295u)), RING_BAD_MINUTES, 0, 0, 0, 0, 0);
    expect("where none is open", ring_settle_at(other, words, NEVER, LIST(2, 1)), RING_BAD_MINUTES, 0, 0, 0, 0, 0);
    expect("15 where no minute is given", ring_settle_at(other, words, LIST(5, 5), hours, 0), RING_BAD_WINDOWS, 0, 0, 0, 0, 0);
    expect("15 before 16", ring_settle_at(other, words, LIST(5, 5), LIST(2, 1)), RING_BAD_WINDOWS, 0, 0, 0, 0, 0);
    expect("1 before 16", ring_settle_at(other, cut, WEEK, LIST(2, 1)), RING_NOT_WELL_FORMED, 0, 0, 0, 0, 0);
    expect("1 before 15", ring_settle_at(other, cut, LIST(5, 5), LIST(1, 2)), RING_NOT_WELL_FORMED, 0, 0, 0, 0, 0);
    expect("no table", ring_settle_at(other, RING_HEADER_WORDS - 1, most, 34, LIST(2, 1)), RING_NOT_WELL_FORMED, 0, 0, 0, 0, 0);
    expect_same("writes nothing", kept, other);
    memcpy(other, table, sizeof other);
    expect("an ideal ring and 16", ring_settle_at(other, words, WEEK, LIST(2, 1)), RING_BAD_MINUTES, 0, 0, 0, 0, 0);
    expect("an ideal ring and 15", ring_settle_at(other, words, LIST(0, 10080), LIST(1, 2)), RING_BAD_WINDOWS, 0, 0, 0, 0, 0);
    expect_same("writes nothing either", table, other);

    ring_new(other, words, 2, ids, 3), ring_fail(other, words, 20), memcpy(kept, other, sizeof kept);
    expect("not sound", ring_settle_at(other, words, ALWAYS, LIST(1, 2)), RING_NOT_SOUND, 0, 0, 0, 0, 0);
    expect("with no minute", ring_settle_at(other, words, ALWAYS, hours, 0), RING_NOT_SOUND, 0, 0, 0, 0, 0);
    expect("with no window", ring_settle_at(other, words, NEVER, LIST(1, 2)), RING_NOT_SOUND, 0, 0, 0, 0, 0);
    expect("16 before 14", ring_settle_at(other, words, ALWAYS, LIST(2, 1)), RING_BAD_MINUTES, 0, 0, 0, 0, 0);
    expect("15 before 14", ring_settle_at(other, words, ALWAYS - 1, LIST(1, 2)), RING_BAD_WINDOWS, 0, 0, 0, 0, 0);
    expect("15 before both", ring_settle_at(other, words, ALWAYS - 1, LIST(2, 1)), RING_BAD_WINDOWS, 0, 0, 0, 0, 0);
    expect("1 before all", ring_settle_at(other, RING_TABLE_WORDS(2, 2) - 1, ALWAYS - 1, LIST(2, 1)), RING_NOT_WELL_FORMED, 0, 0, 0, 0, 0);
    expect_same("that writes nothing as well", kept, other);
}

/* Settle with windows of the table in kept runs so many rounds: it leaves what single rounds at the open minutes leave, and is ring_settle with the
   number of these minutes as its limit. What it leaves is in other then. */
static void expect_rounds(const char *what, uint32_t rounds, const uint32_t *windows, size_t size, const uint32_t *minutes, size_t count)
{
    const uint32_t open = open_in(windows, size, minutes, count);
    struct ring_answer a;
    memcpy(other, kept, sizeof kept), memcpy(single, kept, sizeof kept), memcpy(limited, kept, sizeof kept);
    a = ring_settle_at(other, words, windows, size, minutes, count);
    expect(what, ring_settle(limited, words, open), RING_OK, 3, rounds, a.values[1], a.values[2], 0);
    expect(what, a, RING_OK, 3, rounds_at(single, windows, size, minutes, count), a.values[1], a.values[2], 0);
    expect_same(what, single, other), expect_same(what, limited, other);
}

/* Rounds at open minutes and at no others, on a ring that two rounds settle; the header's list of minutes; the last minute that there is; a ring with
   r = 8 and a step pending; and ideal rings, which get no round. */
static void at_open_minutes(const uint32_t *table)
{
    size_t i;
    every_second_goes(kept, table);
    expect_rounds("no minute", 0, ALWAYS, hours, 0);
    expect_same("no round", kept, other);
    expect_rounds("closed ones", 0, WEEK, LIST(360, 1319, 1800, 10440));
    expect_same("none either", kept, other);
    expect("verdict and passed are told", ring_settle_at(other, words, WEEK, LIST(360)), RING_OK, 3, 0, RING_VERDICT_SOUND, 52, 0);
    expect_rounds("no window", 0, NEVER, half_hours, HALF_HOURS);
    expect_rounds("one open", 1, WEEK, LIST(1319, 1799, 1800));
    memcpy(other, kept, sizeof other);
    expect("verdict 1, and passed as it began", ring_settle_at(other, words, WEEK, LIST(1319, 1799, 1800)), RING_OK, 3, 1, RING_VERDICT_SOUND, 52, 0);
    expect_rounds("the header's minutes", 2, WEEK, LIST(1290, 1320, 1350, 11400));
    memcpy(other, kept, sizeof other);
    expect("verdict 2", ring_settle_at(other, words, WEEK, LIST(1290, 1320, 1350, 11400)), RING_OK, 3, 2, RING_VERDICT_IDEAL, 52, 0);
    expect_rounds("a week later", 2, WEEK, LIST(1290, 1320, 1810, 11400));
    expect_rounds("in the seventh week", 1, LIST(5, 6), LIST(60484, 60485, 60486, 65536));
    expect_rounds("the last minute of all", 1, LIST(254, 255), LIST(0, 4294967293u, 4294967294u));
    expect_rounds("closed", 0, LIST(255, 254), LIST(4294967294u));
    expect_rounds("16 windows", 2, most, 32, LIST(30, 99, 160, 10079, 10080, 10110));

    count_up(many, 256, 4), ring_new(kept, words, 8, many, 256);
    for (i = 0; i < 128; i++) ring_fail(kept, words, 8 * (uint32_t)i);
    set_pending(kept, 3, 1, id_at(kept, 3) + 1);
    expect_rounds("r = 8", 8, WEEK, half_hours, HALF_HOURS);
    expect_rounds("and seven open", 7, WEEK, half_hours + 12, 32 + 7);

    ring_new(kept, words, 2, ids, 4), set_pending(kept, 0, 1, 15);
    expect_rounds("ideal, with a step pending", 0, ALWAYS, half_hours, HALF_HOURS);
    expect_same("which stays so", kept, other);
    expect("0, 2 and 0", ring_settle_at(other, words, ALWAYS, half_hours, HALF_HOURS), RING_OK, 3, 0, RING_VERDICT_IDEAL, 0, 0);
    expect("with no minute too", ring_settle_at(other, words, NEVER, hours, 0), RING_OK, 3, 0, RING_VERDICT_IDEAL, 0, 0);
    memcpy(kept, table, sizeof kept);
    expect_rounds("the settled ring", 0, WEEK, half_hours, HALF_HOURS);
}

/* Nights: the ring that takes 255 rounds gets one each half hour of the header's week, from Monday 21:00 on: 80 in the nights of the working days and
   68 at the weekend, so that it takes until Sunday 9:00 of the second week. 255 open minutes are enough, and 254 are not; a list in parts, and a call
   a minute, add up to the same. */
static void nights(void)
{
    const uint32_t first = 1260 / 30, end = 19260 / 30;
    uint32_t t = 1260, rounds = 0, last = 0, number, part;
    struct ring_answer a;
    slowest(kept);
    expect_true("255 are enough", rounds_enough(kept, words) == 255 && open_in(WEEK, half_hours + first, end + 1 - first) == 255);
    expect_rounds("255 open minutes", 255, WEEK, half_hours + first, end + 1 - first);
    expect("the ring is settled", ring_audit(other, words), RING_OK, 4, 256, 256, 256, RING_VERDICT_IDEAL);
    expect_rounds("more are not used", 255, WEEK, half_hours + first, HALF_HOURS - first);
    expect_rounds("254 open minutes", 254, WEEK, half_hours + first, end - first);
    expect("are too few", ring_audit(other, words), RING_OK, 4, 256, 255, 256, RING_VERDICT_SOUND);
    expect("one more", ring_settle_at(other, words, WEEK, half_hours + end, 1), RING_OK, 3, 1, RING_VERDICT_IDEAL, 0, 0);
    expect_true("the next open minute", next_after(WEEK, half_hours[end - 1] + 29) == half_hours[end]);
    memcpy(limited, other, sizeof other);

    memcpy(other, kept, sizeof other);
    for (part = 0, number = RING_OK; part < HALF_HOURS && number == RING_OK; part += 48) { /* a day at a time */
        a = ring_settle_at(other, words, WEEK, half_hours + part, 48);
        number = a.number, last = a.values[1], rounds += a.values[0];
    }
    expect_true("day by day", number == RING_OK && rounds == 255 && last == RING_VERDICT_IDEAL);
    expect_same("leaves the same", limited, other);

    memcpy(other, kept, sizeof other);
    for (rounds = 0, last = RING_VERDICT_SOUND, part = 0; part < 256 && last == RING_VERDICT_SOUND; part++) {
        t = next_after(WEEK, part == 0 ? t : t + 29);
        a = ring_settle_at(other, words, WEEK, &t, 1);
        last = a.values[1], rounds += a.values[0];
    }
    expect_true("call by call, until Sunday 9:00 of the second week", rounds == 255 && last == RING_VERDICT_IDEAL && t == half_hours[end]);
    expect_same("leaves the same too", limited, other);

    memcpy(other, kept, sizeof other);
    a = ring_settle_at(other, words, WEEK, half_hours, 48 * 4), rounds = a.values[0];
    expect("some nights", a, RING_OK, 3, 12 + 16 * 3 + 4, RING_VERDICT_SOUND, 0, 0);
    expect("a round", ring_round(other, words), RING_OK, 1, RING_VERDICT_SOUND, 0, 0, 0);
    expect("and settle", ring_settle(other, words, 255), RING_OK, 3, 254 - rounds, RING_VERDICT_IDEAL, 0, 0);
    expect_same("lead to the same ring", limited, other);
}

/* The README's menu: the nights of a week, 22:00 to 6:00, and the ring of four after 25 has joined by 20. */
static void menu(void)
{
    const uint32_t seven[14] = {1320, 1800, 2760, 3240, 4200, 4680, 5640, 6120, 7080, 7560, 8520, 9000, 9960, 360};
    ring_new(other, words, 2, ids, 4), ring_join(other, words, 25, 20);
    expect("Monday, 21:30", ring_is_open(seven, 14, 1290), RING_OK, 1, 0, 0, 0, 0);
    expect("next", ring_next_open(seven, 14, 1290), RING_OK, 2, 1, 1320, 0, 0);
    expect("two rounds", ring_settle_at(other, words, seven, 14, LIST(1290, 1320, 1350)), RING_OK, 3, 2, RING_VERDICT_SOUND, 0, 0);
    expect("the third", ring_settle_at(other, words, seven, 14, LIST(1380)), RING_OK, 3, 1, RING_VERDICT_IDEAL, 0, 0);
}

/* Req 09: service hours. */
void service_hours(const uint32_t *table)
{
    count_up(half_hours, HALF_HOURS, 30);
    weeks();
    windows_refused(table);
    minutes_refused(table);
    at_open_minutes(table);
    nights();
    menu();
}
