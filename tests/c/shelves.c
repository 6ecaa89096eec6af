/* A ring of twelve shelves, as one writes it from include/ring.h alone, and nothing else of the project: joins, a withdrawal, losses, turns, step
   counts, settle, service hours, held keys, images, a copy compared, and findings. It compiles as C99, C11 and C++. Exit status 0, and 'shelves: as
   the header says' on standard output. */

#include "ring.h"
#include <stdio.h>
#include <string.h>

enum { SHELVES = 12, KEYS = 500, WORDS = RING_TABLE_WORDS_MOST };

static uint32_t table[WORDS], copy[WORDS], keys[KEYS];
static uint8_t image[RING_IMAGE_BYTES_MOST];
static struct ring_finding findings[RING_MEMBERS_MOST];
static const uint32_t hours[12] = {1320, 1800, 2760, 3240, 4200, 4680, 5640, 6120, 7080, 7560, 8400, 360};

/* Says what went wrong, and how often something did. */
static int wrong;
static void check(int holds, const char *what)
{
    if (!holds) printf("%s\n", what), wrong++;
}

/* The identifier of the member at a place. */
static uint32_t id_at(uint32_t place)
{
    return table[RING_RECORD(table[RING_R], place) + RING_ID];
}

/* The place of a member. */
static uint32_t place_of(uint32_t n)
{
    uint32_t place = 0;
    while (id_at(place) != n) place++;
    return place;
}

/* A reading of a member's step count. */
static uint32_t steps_of(uint32_t n)
{
    return table[RING_STEPS(table[RING_R], place_of(n))];
}

/* The turn of a member: a pending step is finished, then stabilize steps until done; each done is a notice to the shelf named. */
static int turn(uint32_t place)
{
    const uint32_t n = id_at(place), r = table[RING_R];
    uint32_t step, due = 1 + table[RING_RECORD(r, place) + RING_PENDING];
    for (step = 0; step < r + 2 && due > 0; step++) {
        const struct ring_answer a = ring_stabilize(table, WORDS, n);
        if (a.number != RING_OK) return 0;
        if (a.values[0] != RING_DONE) continue;
        ring_rectify(table, WORDS, a.values[1], n);
        due--;
    }
    return due == 0;
}

/* j joins by the member that a lookup of it stands at; behind a dead first entry that one takes its turn first. */
static uint32_t join(uint32_t j)
{
    uint32_t tries, number = RING_NO_MEMBER;
    for (tries = 0; tries < RING_MEMBERS_MOST; tries++) {
        const struct ring_answer a = ring_lookup(table, WORDS, id_at(0), j);
        if (a.number != RING_OK) return a.number;
        number = ring_join(table, WORDS, j, a.values[1]).number;
        if (number != RING_NOT_BETWEEN && number != RING_DEAD_FIRST_ENTRY) return number;
        turn(place_of(a.values[1]));
    }
    return number;
}

/* A shelf is gone. */
static void lost(uint32_t n)
{
    const uint32_t number = ring_leave(table, WORDS, n).number;
    if (number == RING_CUTS_OFF || number == RING_TOO_FEW_PRINCIPALS) ring_fail(table, WORDS, n);
}

/* Settles the copy in service hours, after Monday 6:00, with a call at each open minute. Returns the rounds that it took, 0 where it did not end. */
static uint32_t at_night(void)
{
    uint32_t t = 360, rounds;
    for (rounds = 1; rounds < RING_MEMBERS_MOST; rounds++) {
        const uint32_t m = (t + 1) % RING_WEEK;
        struct ring_answer a = ring_next_open(hours, 12, m);
        if (a.number != RING_OK || a.values[0] != 1) return 0;
        t += 1 + (a.values[1] + RING_WEEK - m) % RING_WEEK;
        a = ring_settle_at(copy, WORDS, hours, 12, &t, 1);
        if (a.number != RING_OK || a.values[0] != 1) return 0;
        if (a.values[1] == RING_VERDICT_IDEAL) return rounds;
    }
    return 0;
}

static uint32_t verdict(void)
{
    const struct ring_answer a = ring_audit(table, WORDS);
    check(a.number == RING_OK, "an audit");
    return a.values[3];
}

/* Each key is in the runs of one member, and that is the one that a lookup from any other finds. */
static void hold(void)
{
    uint32_t place;
    size_t at, all = 0;
    int run;
    for (at = 0; at < KEYS; at++) keys[at] = 9 * (uint32_t)at;
    for (place = 0; place < table[RING_MEMBERS]; place++) {
        const struct ring_runs held = ring_held(table, WORDS, id_at(place), keys, KEYS);
        check(held.number == RING_OK && held.runs == (place == 0 ? 2u : 1u), "runs");
        for (run = 0; run < (int)held.runs; run++)
            for (at = held.start[run]; at < held.end[run]; at++, all++)
                check(ring_lookup(table, WORDS, id_at(table[RING_MEMBERS] - 1), keys[at]).values[0] == id_at(place), "owner");
    }
    check(all == KEYS, "each key once");
}

int main(void)
{
    uint32_t ids[SHELVES], place, bytes, steps;
    struct ring_answer a;
    for (place = 0; place < SHELVES; place++) ids[place] = 100 * place + 50;

    check(ring_new(table, WORDS, 3, ids, SHELVES).number == RING_OK && verdict() == RING_VERDICT_IDEAL, "a new ring");
    check(join(120) == RING_OK && join(130) == RING_OK && join(4000000000u) == RING_OK && join(7) == RING_OK, "four join");
    check(join(130) == RING_ALREADY_MEMBER, "one is there already");
    check(verdict() == RING_VERDICT_SOUND, "sound after joins");
    steps = steps_of(550);
    for (place = 0; place < table[RING_MEMBERS]; place++) check(id_at(place) == 550 || turn(place), "a turn ends");
    for (place = 0; place < table[RING_MEMBERS]; place++) check(id_at(place) == 550 || steps_of(id_at(place)) > 0, "each has stabilized");
    check(steps_of(550) == steps, "but 550 has not");
    check(turn(place_of(550)) && steps_of(550) > steps, "then it has");
    check(ring_leave(table, WORDS, 350).number == RING_OK, "350 leaves");
    lost(450), lost(950);
    check(verdict() == RING_VERDICT_SOUND, "sound after losses");
    check(join(360) == RING_OK, "one joins behind the lost ones");
    memcpy(copy, table, sizeof copy);
    a = ring_settle(table, WORDS, 255);
    check(a.number == RING_OK && a.values[1] == RING_VERDICT_IDEAL, "settled");
    check(at_night() == a.values[0] && memcmp(copy, table, sizeof copy) == 0, "the same at night");
    a = ring_audit(table, WORDS);
    check(a.values[0] == 14 && a.values[1] == 14 && a.values[2] == 14 && a.values[3] == RING_VERDICT_IDEAL, "14 shelves, all on the ring");
    hold();

    a = ring_image_write(table, WORDS, image, sizeof image);
    bytes = a.values[0];
    check(a.number == RING_OK && bytes == RING_IMAGE_BYTES(table[RING_R], table[RING_MEMBERS]), "an image");
    check(ring_image_read(copy, WORDS, image, sizeof image).number == RING_NO_IMAGE, "with too many bytes it is none");
    check(ring_image_read(copy, WORDS, image, bytes).number == RING_OK, "read");
    check(ring_alike(table, WORDS, copy, WORDS).values[0] == 1, "alike");
    check(memcmp(table, copy, RING_TABLE_WORDS(table[RING_R], table[RING_MEMBERS]) * sizeof *table) == 0, "word for word");
    check(ring_stabilize(copy, WORDS, 550).values[0] == RING_DONE && ring_alike(table, WORDS, copy, WORDS).values[0] == 1, "alike after a step more");
    a = ring_rectify(copy, WORDS, 550, 549);
    check(a.number == RING_OK && a.values[0] == 1, "a notice that only the copy gets");
    a = ring_alike(table, WORDS, copy, WORDS);
    check(a.number == RING_OK && a.values[0] == 0, "another predecessor is not alike");

    a = ring_findings(table, WORDS, findings, RING_MEMBERS_MOST);
    check(a.number == RING_OK, "findings");
    for (place = 0; place < table[RING_MEMBERS]; place++)
        check(findings[place].id == id_at(place) && findings[place].principal == 1 && findings[place].moves == 0, "each on the ring");

    for (place = table[RING_MEMBERS]; place > 3; place--) lost(id_at(0));
    check(verdict() == RING_VERDICT_NOT_SOUND && ring_settle(table, WORDS, 255).number == RING_NOT_SOUND, "too few are left");
    for (place = 0; place < 3; place++) ids[place] = id_at(place);
    check(ring_new(table, WORDS, 3, ids, 3).number == RING_NO_NEW_TABLE, "three make no ring of r = 3");
    check(ring_new(table, WORDS, 2, ids, 3).number == RING_OK && verdict() == RING_VERDICT_IDEAL, "but one of r = 2");
    if (wrong == 0) printf("shelves: as the header says\n");
    return wrong != 0;
}
