/* Document 02's requests, a function each, Req 01 to Req 06: what the firmware loop asks of the settled ring of 104 shelves, and of rings of its own.
   requests_07.c and requests_09.c have the later ones. */

#include "firmware.h"
#include "check.h"
#include "layout.h"

/* Tables to try things on and to compare with; many identifiers or keys. */
static uint32_t other[RING_TABLE_WORDS_MOST], kept[RING_TABLE_WORDS_MOST], many[100000];
static const size_t words = RING_TABLE_WORDS_MOST;
static const uint32_t ids[] = {10, 20, 30, 40}, six[] = {10, 20, 30, 40, 50, 60};

/* Req 01: which keys a shelf holds. On the settled ring each key has one holder, and it is the owner that is found from every shelf. */
void held_keys(const uint32_t *table)
{
    const uint32_t keys[] = {0, 20, 21, 25, 26, 41, 999, 1000, 1001, 1693, 1694, 4294967295u}, equal[] = {5, 20, 20}, falling[] = {21, 20, 30};
    const uint32_t some[] = {21, 26, 30}, ends[] = {0, 4294967295u}, few[] = {0, 1, 7, 8, 4294967295u}, seven = 7;
    uint32_t lone[RING_TABLE_WORDS(1, 1)];
    memcpy(kept, table, sizeof kept);
    expect_runs("held by the lowest", ring_held(table, words, 20, keys, 12), RING_OK, 2, 10, 12, 0, 2);
    expect_runs("held by 25", ring_held(table, words, 25, keys, 12), RING_OK, 1, 2, 4, 0, 0);
    expect_runs("held by 40, none", ring_held(table, words, 40, keys, 12), RING_OK, 1, 5, 5, 0, 0);
    expect_runs("held by the last", ring_held(table, words, 1693, keys, 12), RING_OK, 1, 9, 10, 0, 0);
    expect_runs("no keys, the lowest", ring_held(table, words, 20, keys, 0), RING_OK, 2, 0, 0, 0, 0);
    expect_runs("no keys, the last", ring_held(table, words, 1693, keys, 0), RING_OK, 1, 0, 0, 0, 0);
    expect_runs("one key", ring_held(table, words, 20, keys + 11, 1), RING_OK, 2, 0, 1, 0, 0);
    expect_runs("held on no table", ring_held(table, RING_HEADER_WORDS - 1, 11, equal, 3), RING_NOT_WELL_FORMED, 0, 0, 0, 0, 0);
    expect_runs("held by no member", ring_held(table, words, 11, equal, 3), RING_NO_MEMBER, 0, 0, 0, 0, 0);
    expect_runs("equal keys", ring_held(table, words, 20, equal, 3), RING_KEYS_NOT_RISING, 0, 0, 0, 0, 0);
    expect_runs("falling keys", ring_held(table, words, 20, falling, 3), RING_KEYS_NOT_RISING, 0, 0, 0, 0, 0);
    expect_runs("the rest rises", ring_held(table, words, 25, falling + 1, 2), RING_OK, 1, 1, 1, 0, 0);
    count_up(many, 100000, 1);
    expect_runs("many keys", ring_held(table, words, 20, many, 100000), RING_OK, 2, 1694, 100000, 0, 21);
    expect_true("each key has one holder, its owner", screen(table, words, keys, 12) == 12);
    expect_same("held writes nothing", kept, table);

    /* A shelf's keys start after the next lower member's, also while its predecessor is an older one. A ring of the two ends of the identifiers;
       a lone shelf, which holds all keys, in two runs. */
    expect("four", ring_new(other, words, 2, ids, 4), RING_OK, 1, 4, 0, 0, 0);
    expect("and one more", ring_join(other, words, 25, 20), RING_OK, 1, 5, 0, 0, 0);
    expect_runs("held by 30", ring_held(other, words, 30, some, 3), RING_OK, 1, 1, 3, 0, 0);
    expect("the ends", ring_new(other, words, 1, ends, 2), RING_OK, 1, 2, 0, 0, 0);
    expect_runs("held by 0", ring_held(other, words, 0, few, 5), RING_OK, 2, 5, 5, 0, 1);
    expect_runs("held by 4294967295", ring_held(other, words, 4294967295u, few, 5), RING_OK, 1, 1, 5, 0, 0);
    no_members(lone, 1), add_member(lone, 7, 7, &seven);
    expect_runs("held by a lone shelf", ring_held(lone, RING_TABLE_WORDS(1, 1), 7, few, 5), RING_OK, 2, 3, 5, 0, 3);
}

/* Req 02: which shelves are principals, and after how many pairs that is known: a full ring, then with two lists that skip one shelf each, the
   first by its first pair and the last by its last; a shelf that joined, and that only the list of its neighbour below skips; a lone shelf
   that its own list skips; no shelf. */
void principal_test(void)
{
    const uint32_t falling[] = {9, 8};
    uint32_t lone[RING_TABLE_WORDS(2, 1)], none[RING_TABLE_WORDS(8, 0)];
    size_t i;
    count_up(many, 256, 1);
    expect("a full ring", ring_new(other, words, 8, many, 256), RING_OK, 1, 256, 0, 0, 0);
    expect("no pair skips 0", ring_principal(other, words, 0), RING_OK, 2, 1, 2048, 0, 0);
    expect("nor 255", ring_principal(other, words, 255), RING_OK, 2, 1, 2048, 0, 0);
    expect_true("256 principals", principals(other, words) == 256);
    for (i = 0; i < 8; i++) record_at(other, 0)[RING_LIST + i] = 2 + (uint32_t)i;
    record_at(other, 255)[RING_LIST + 7] = 8;
    memcpy(kept, other, sizeof kept);
    expect("the first pair skips 1", ring_principal(other, words, 1), RING_OK, 2, 0, 1, 0, 0);
    expect("only the last pair skips 7", ring_principal(other, words, 7), RING_OK, 2, 0, 2048, 0, 0);
    expect("no pair skips 8", ring_principal(other, words, 8), RING_OK, 2, 1, 2048, 0, 0);
    expect_true("254 principals", principals(other, words) == 254);
    expect("no table", ring_principal(other, RING_TABLE_WORDS(8, 256) - 1, 7), RING_NOT_WELL_FORMED, 0, 0, 0, 0, 0);
    expect("no table and no member", ring_principal(other, RING_HEADER_WORDS - 1, 256), RING_NOT_WELL_FORMED, 0, 0, 0, 0, 0);
    expect("no member", ring_principal(other, words, 256), RING_NO_MEMBER, 0, 0, 0, 0, 0);
    expect("no member 4294967295", ring_principal(other, words, 4294967295u), RING_NO_MEMBER, 0, 0, 0, 0, 0);
    expect_same("the test writes nothing", kept, other);

    ring_new(other, words, 1, ids, 4);
    expect("35 joins", ring_join(other, words, 35, 30), RING_OK, 1, 5, 0, 0, 0);
    expect("the third list skips 35", ring_principal(other, words, 35), RING_OK, 2, 0, 3, 0, 0);
    expect("no list skips 30", ring_principal(other, words, 30), RING_OK, 2, 1, 5, 0, 0);
    expect_true("the four before are principals", principals(other, words) == 4);

    no_members(lone, 2), add_member(lone, 7, 7, falling);
    expect("a lone shelf skipped", ring_principal(lone, RING_TABLE_WORDS(2, 1), 7), RING_OK, 2, 0, 2, 0, 0);
    expect_true("no principal", principals(lone, RING_TABLE_WORDS(2, 1)) == 0);
    no_members(none, 8);
    expect("no shelf", ring_principal(none, RING_TABLE_WORDS(8, 0), 7), RING_NO_MEMBER, 0, 0, 0, 0, 0);
}

/* Req 03: no joining behind a dead neighbour. The loss of 20 leaves 10 before a dead entry: a join by 10 is declined by 13, and the
   table stays as it was, until a step of 10 has cleared the entry; the new shelf's own first step then clears none. 2, 3 and 4 come before 13,
   and 13 before 5: the slice has room for the record, or one word less. */
void join_declined(const uint32_t *table)
{
    const size_t four = RING_TABLE_WORDS(2, 4);
    size_t i, joined = 0, granted = 0, declined = 0, no_again = 0;
    expect("four shelves", ring_new(other, words, 2, ids, 4), RING_OK, 1, 4, 0, 0, 0);
    expect("the loss of 20", ring_fail(other, four, 20), RING_OK, 1, 3, 0, 0, 0);
    expect("a sound ring", ring_audit(other, four), RING_OK, 4, 3, 3, 3, RING_VERDICT_SOUND);
    memcpy(kept, other, sizeof kept);
    expect("behind the dead 20", ring_join(other, four, 15, 10), RING_DEAD_FIRST_ENTRY, 0, 0, 0, 0, 0);
    expect("13 before 5", ring_join(other, four - 1, 15, 10), RING_DEAD_FIRST_ENTRY, 0, 0, 0, 0, 0);
    expect("5 behind a live neighbour", ring_join(other, four - 1, 35, 30), RING_NO_ROOM, 0, 0, 0, 0, 0);
    expect("4 before 13", ring_join(other, four, 25, 10), RING_NOT_BETWEEN, 0, 0, 0, 0, 0);
    expect("4 before 13 and 5", ring_join(other, four - 1, 25, 10), RING_NOT_BETWEEN, 0, 0, 0, 0, 0);
    expect("2 before 13", ring_join(other, four, 40, 10), RING_ALREADY_MEMBER, 0, 0, 0, 0, 0);
    expect("by the lost shelf", ring_join(other, four, 25, 20), RING_NO_MEMBER, 0, 0, 0, 0, 0);
    expect_same("no word is written", kept, other);
    expect("10 clears the dead entry", ring_stabilize(other, four, 10), RING_OK, 1, RING_AGAIN, 0, 0, 0);
    expect("5 then", ring_join(other, four - 1, 15, 10), RING_NO_ROOM, 0, 0, 0, 0, 0);
    expect("the same join", ring_join(other, four, 15, 10), RING_OK, 1, 4, 0, 0, 0);
    expect("the new shelf looks at the lost one", ring_stabilize(other, four, 15), RING_OK, 2, RING_LOOK, 20, 0, 0);
    expect("and is done", ring_stabilize(other, four, 15), RING_OK, 2, RING_DONE, 30, 0, 0);
    expect("30 takes its notice", ring_rectify(other, four, 30, 15), RING_OK, 1, 1, 0, 0, 0);
    expect("sound still", ring_audit(other, four), RING_OK, 4, 4, 3, 3, RING_VERDICT_SOUND);

    /* The same on the settled ring: each third of the shelves from 1000 on is withdrawn, and a new one joins by the shelf before it. On a full
       table 13 comes before 5 too. */
    memcpy(other, table, sizeof other);
    for (i = 1; i < 100; i += 3) {
        const uint32_t lost = 1000 + 7 * (uint32_t)i;
        granted += ring_leave(other, words, lost).number == RING_OK;
        declined += ring_join(other, words, lost - 3, lost - 7).number == RING_DEAD_FIRST_ENTRY;
        joined += join_anywhere(other, words, lost - 3) == RING_OK;
        no_again += ring_stabilize(other, words, lost - 3).values[0] != RING_AGAIN;
    }
    expect_true("33 withdrawals and joins, each declined at first", granted == 33 && declined == 33 && joined == 33);
    expect_true("no new shelf clears a dead entry", no_again == 33);
    expect("the ring is sound", ring_audit(other, words), RING_OK, 4, 104, 71, 71, RING_VERDICT_SOUND);

    /* A step of 10 that ends 13 takes up 12, and the same join gets 4: 15 is looked up again, and joins by 12 when that one's turn is over. */
    ring_new(other, words, 2, ids, 4), ring_join(other, words, 12, 10), ring_rectify(other, words, 20, 12);
    expect("10 is to look at 12", ring_stabilize(other, words, 10), RING_OK, 2, RING_LOOK, 12, 0, 0);
    expect_true("20 is lost", report_loss(other, words, 20) == RING_OK);
    expect("15 is found at 10", ring_lookup(other, words, 30, 15), RING_OK, 4, 30, 10, 2, 1);
    expect("behind a dead entry", ring_join(other, words, 15, 10), RING_DEAD_FIRST_ENTRY, 0, 0, 0, 0, 0);
    memcpy(kept, other, sizeof kept);
    expect("10 takes up 12", ring_stabilize(other, words, 10), RING_OK, 2, RING_DONE, 12, 0, 0);
    expect("4 then", ring_join(other, words, 15, 10), RING_NOT_BETWEEN, 0, 0, 0, 0, 0);
    expect("15 is found at 12", ring_lookup(other, words, 30, 15), RING_OK, 4, 30, 12, 3, 1);
    expect("behind a dead entry too", ring_join(other, words, 15, 12), RING_DEAD_FIRST_ENTRY, 0, 0, 0, 0, 0);
    expect_true("12 is done", turn_of(other, words, 1) > 0);
    expect("15 joins", ring_join(other, words, 15, 12), RING_OK, 1, 5, 0, 0, 0);
    expect_true("the same by itself", join_anywhere(kept, words, 15) == RING_OK);
    expect("sound with 15", ring_audit(kept, words), RING_OK, 4, 5, 3, 4, RING_VERDICT_SOUND);

    count_up(many, 256, 4);
    expect("256 shelves", ring_new(other, words, 2, many, 256), RING_OK, 1, 256, 0, 0, 0);
    expect("12 is lost", ring_fail(other, words, 12), RING_OK, 1, 255, 0, 0, 0);
    expect("17 joins", ring_join(other, words, 17, 16), RING_OK, 1, 256, 0, 0, 0);
    memcpy(kept, other, sizeof kept);
    expect("13 on a full table", ring_join(other, words, 9, 8), RING_DEAD_FIRST_ENTRY, 0, 0, 0, 0, 0);
    expect("4 on a full table", ring_join(other, words, 13, 8), RING_NOT_BETWEEN, 0, 0, 0, 0, 0);
    expect_same("no word of it is written", kept, other);
    expect_true("5 after a turn", join_anywhere(other, words, 9) == RING_NO_ROOM);
}

/* Req 04: verdict 2 lets any r - 1 shelves go, one after the other. While the second entry of 10 is the lost 30, first entries and
   predecessors are right, and yet 20 may not go; a step of 10 ends that. */
void withdrawals(void)
{
    uint32_t gone;
    expect("six shelves", ring_new(other, words, 2, six, 6), RING_OK, 1, 6, 0, 0, 0);
    expect("ideal", ring_audit(other, words), RING_OK, 4, 6, 6, 6, RING_VERDICT_IDEAL);
    expect("the loss of 30", ring_fail(other, words, 30), RING_OK, 1, 5, 0, 0, 0);
    expect_true("20 is done", turn_of(other, words, 1) == 3);
    expect("only a second entry is old", ring_audit(other, words), RING_OK, 4, 5, 5, 5, RING_VERDICT_SOUND);
    memcpy(kept, other, sizeof kept);
    expect("10 would be cut off", ring_leave(other, words, 20), RING_CUTS_OFF, 0, 0, 0, 0, 0);
    expect_same("that writes nothing", kept, other);
    expect_true("10 is done", turn_of(other, words, 0) == 1);
    expect("ideal then", ring_audit(other, words), RING_OK, 4, 5, 5, 5, RING_VERDICT_IDEAL);
    expect("20 may go", ring_leave(other, words, 20), RING_OK, 1, 4, 0, 0, 0);
    expect("40 no longer", ring_leave(other, words, 40), RING_CUTS_OFF, 0, 0, 0, 0, 0);
    expect("sound", ring_audit(other, words), RING_OK, 4, 4, 4, 4, RING_VERDICT_SOUND);

    /* Two neighbours of r = 3 round the end, and the third; of five shelves one, since four must be left. */
    expect("six of r = 3", ring_new(other, words, 3, six, 6), RING_OK, 1, 6, 0, 0, 0);
    expect("60 goes", ring_leave(other, words, 60), RING_OK, 1, 5, 0, 0, 0);
    expect("10 goes", ring_leave(other, words, 10), RING_OK, 1, 4, 0, 0, 0);
    expect("20 is the third", ring_leave(other, words, 20), RING_CUTS_OFF, 0, 0, 0, 0, 0);
    expect("30 leaves too few", ring_leave(other, words, 30), RING_TOO_FEW_PRINCIPALS, 0, 0, 0, 0, 0);
    expect("sound without them", ring_audit(other, words), RING_OK, 4, 4, 4, 4, RING_VERDICT_SOUND);
    expect("five of r = 3", ring_new(other, words, 3, six, 5), RING_OK, 1, 5, 0, 0, 0);
    expect("30 goes", ring_leave(other, words, 30), RING_OK, 1, 4, 0, 0, 0);
    expect("no other", ring_leave(other, words, 50), RING_TOO_FEW_PRINCIPALS, 0, 0, 0, 0, 0);

    /* Seven neighbours of a full ring of r = 8, and the eighth; then a full ring in which only the highest shelf's last entry is old. */
    count_up(many, 256, 4);
    expect("a full ring of r = 8", ring_new(other, words, 8, many, 256), RING_OK, 1, 256, 0, 0, 0);
    for (gone = 0; gone < 7; gone++)
        if (ring_leave(other, words, many[(252 + gone) % 256]).values[0] != 255 - gone) break;
    expect_true("seven neighbours go", gone == 7);
    expect("the eighth would cut one off", ring_leave(other, words, 12), RING_CUTS_OFF, 0, 0, 0, 0, 0);
    expect("the full ring is sound", ring_audit(other, words), RING_OK, 4, 249, 249, 249, RING_VERDICT_SOUND);
    ring_new(other, words, 8, many, 256);
    expect("a full ring is ideal", ring_audit(other, words), RING_OK, 4, 256, 256, 256, RING_VERDICT_IDEAL);
    record_at(other, 255)[RING_LIST + 7] = 27;
    expect("but for its last entry", ring_audit(other, words), RING_OK, 4, 256, 256, 256, RING_VERDICT_SOUND);
}

/* Req 05. The ring that takes longest: r + 1 shelves, and all others have joined by the highest of them. It takes members - 1 rounds.
   A pending step is finished first: 10 awaits the lost 15, on an ideal ring too, which settle leaves alone and a round does not; behind the lost
   20 its notice is lost. */
void settling(const uint32_t *table)
{
    const uint32_t three[] = {0, 1, 2};
    size_t i, joined = 0;
    expect("three shelves", ring_new(other, words, 2, three, 3), RING_OK, 1, 3, 0, 0, 0);
    for (i = 3; i < 256; i++) joined += ring_join(other, words, (uint32_t)i, 2).number == RING_OK;
    expect_true("253 join by the highest", joined == 253);
    expect("three principals", ring_audit(other, words), RING_OK, 4, 256, 3, 3, RING_VERDICT_SOUND);
    expect_true("255 rounds are enough", rounds_enough(other, words) == 255);
    memcpy(kept, other, sizeof kept);
    expect("and none too many", ring_settle(kept, words, 65536), RING_OK, 3, 255, RING_VERDICT_IDEAL, 0, 0);
    expect("254 are not", ring_settle(other, words, 254), RING_OK, 3, 254, RING_VERDICT_SOUND, 0, 0);
    expect("one more", ring_settle(other, words, 4294967295u), RING_OK, 3, 1, RING_VERDICT_IDEAL, 0, 0);
    expect("settled, 256 shelves", ring_audit(other, words), RING_OK, 4, 256, 256, 256, RING_VERDICT_IDEAL);

    expect("four shelves again", ring_new(other, words, 2, ids, 4), RING_OK, 1, 4, 0, 0, 0);
    set_pending(other, 0, 1, 15);
    memcpy(kept, other, sizeof kept);
    expect("ideal while a step is pending", ring_settle(other, words, 9), RING_OK, 3, 0, RING_VERDICT_IDEAL, 0, 0);
    expect_same("which settle leaves", kept, other);
    expect("a round finishes it", ring_round(other, words), RING_OK, 1, RING_VERDICT_IDEAL, 0, 0, 0);
    set_pending(kept, 0, 0, 0), *steps_at(kept, 0) = 2;
    for (i = 1; i < 4; i++) *steps_at(kept, i) = 1;
    expect_same("by one step more", kept, other);
    set_pending(other, 0, 1, 15);
    expect("the loss of 20 ahead", ring_fail(other, words, 20), RING_OK, 1, 3, 0, 0, 0);
    expect("done, nobody told, again, look, done; done; done", ring_round(other, words), RING_OK, 1, RING_VERDICT_IDEAL, 0, 0, 0);
    expect_true("four steps of 10, one of 30 and of 40", steps_of(other, 10) == 2 + 4 && steps_of(other, 30) == 2 && steps_of(other, 40) == 2);

    ring_new(other, words, 2, ids, 4);
    expect("12 joins", ring_join(other, words, 12, 10), RING_OK, 1, 5, 0, 0, 0);
    expect_true("20 takes its notice", turn_of(other, words, 1) == 1);
    expect("10 looks at it", ring_stabilize(other, words, 10), RING_OK, 2, RING_LOOK, 12, 0, 0);
    expect("it is lost", ring_fail(other, words, 12), RING_OK, 1, 4, 0, 0, 0);
    expect("20 has 10's notice first", ring_round(other, words), RING_OK, 1, RING_VERDICT_IDEAL, 0, 0, 0);
    expect_true("so 10 looks at nobody", steps_of(other, 10) == 1 + 2);

    /* Refused: three shelves of which one was lost are not sound; a table longer than its slice. */
    expect("three shelves of 2", ring_new(other, words, 2, ids, 3), RING_OK, 1, 3, 0, 0, 0);
    expect("one is lost", ring_fail(other, words, 20), RING_OK, 1, 2, 0, 0, 0);
    memcpy(kept, other, sizeof kept);
    expect("no round", ring_round(other, words), RING_NOT_SOUND, 0, 0, 0, 0, 0);
    expect("no settling", ring_settle(other, words, 5), RING_NOT_SOUND, 0, 0, 0, 0, 0);
    expect("nor with limit 0", ring_settle(other, words, 0), RING_NOT_SOUND, 0, 0, 0, 0, 0);
    expect("1 before 14, a round", ring_round(other, RING_TABLE_WORDS(2, 2) - 1), RING_NOT_WELL_FORMED, 0, 0, 0, 0, 0);
    expect("1 before 14, settle", ring_settle(other, RING_TABLE_WORDS(2, 2) - 1, 5), RING_NOT_WELL_FORMED, 0, 0, 0, 0, 0);
    expect_same("a refused one writes nothing", kept, other);
    memcpy(other, table, sizeof other);
    expect("no round of a table cut short", ring_round(other, RING_TABLE_WORDS(2, 104) - 1), RING_NOT_WELL_FORMED, 0, 0, 0, 0, 0);
    expect("nor settling", ring_settle(other, RING_TABLE_WORDS(2, 104) - 1, 0), RING_NOT_WELL_FORMED, 0, 0, 0, 0, 0);
    expect_same("that writes nothing either", other, table);
}

/* Req 06: how stale the lists are. Every second shelf of the settled ring goes, and each other one passes one dead entry over. Find
   adds up those of the shelves it stood at, settle those of all as it began. Entries after a live one are not passed over, and 8 tells a shelf
   alone. */
void passed_over(const uint32_t *table)
{
    size_t i, gone = 0;
    uint32_t passed = 0;
    memcpy(other, table, sizeof other);
    for (i = 0; i < 52; i++) gone += ring_leave(other, words, id_at(other, i)).number == RING_OK;
    for (i = 0; i < 52; i++) passed += ring_lookup(other, words, id_at(other, i), id_at(other, i) + 1).values[3];
    expect_true("52 shelves go, and each other one passes an entry", gone == 52 && passed == 52);
    expect("25 passes the lost 30", ring_lookup(other, words, 25, 26), RING_OK, 4, 40, 25, 0, 1);
    expect("and 40 the lost 1000", ring_lookup(other, words, 25, 1000), RING_OK, 4, 1007, 40, 1, 2);
    expect("all of them once round", ring_lookup(other, words, 25, 25), RING_OK, 4, 25, 1693, 51, 52);
    expect("limit 0 tells their sum", ring_settle(other, words, 0), RING_OK, 3, 0, RING_VERDICT_SOUND, 52, 0);
    expect("a round, and the sum before it", ring_settle(other, words, 1), RING_OK, 3, 1, RING_VERDICT_SOUND, 52, 0);
    expect("nothing is passed over then", ring_lookup(other, words, 25, 25), RING_OK, 4, 25, 1693, 51, 0);
    expect("though lists are old", ring_settle(other, words, 255), RING_OK, 3, 1, RING_VERDICT_IDEAL, 0, 0);
    ring_new(other, words, 3, six, 6), ring_join(other, words, 15, 10), ring_fail(other, words, 20), ring_fail(other, words, 30);
    set_pending(other, 0, 1, 15);
    expect("10, which awaits 15, and 15, which is off the ring, pass two each", ring_settle(other, words, 0), RING_OK, 3, 0, RING_VERDICT_SOUND, 4, 0);
    expect("in the list of 60 they stand after 10", ring_lookup(other, words, 60, 5), RING_OK, 4, 10, 60, 0, 0);
    expect("10 passes both", ring_lookup(other, words, 60, 35), RING_OK, 4, 40, 10, 1, 2);
    ring_fail(other, words, 40), ring_fail(other, words, 60);
    expect("50 passes the lost 60, and 10 has no live entry", ring_lookup(other, words, 50, 35), RING_NO_LIVE_ENTRY, 1, 10, 0, 0, 0);
    expect("no member is on a ring", ring_audit(other, words), RING_OK, 4, 3, 2, 0, RING_VERDICT_NOT_SOUND);

    /* What is passed over need not have been a shelf: each step of 20 appends the identifier after its last entry, and 51 never was one. */
    for (i = 0; i < 8; i++) many[i] = 10 * (uint32_t)i + 10;
    ring_new(other, words, 3, many, 8);
    expect_true("30 goes", report_loss(other, words, 30) == RING_OK);
    expect("20 drops it", ring_stabilize(other, words, 20), RING_OK, 1, RING_AGAIN, 0, 0, 0);
    expect_true("40 goes", report_loss(other, words, 40) == RING_OK);
    expect("20 drops it too", ring_stabilize(other, words, 20), RING_OK, 1, RING_AGAIN, 0, 0, 0);
    expect("52 joins by 50", ring_join(other, words, 52, 50), RING_OK, 1, 7, 0, 0, 0);
    expect_true("50 goes", report_loss(other, words, 50) == RING_OK);
    expect("20 drops it as well", ring_stabilize(other, words, 20), RING_OK, 1, RING_AGAIN, 0, 0, 0);
    expect_true("the list of 20 begins with 51", record_at(other, 1)[RING_LIST] == 51);
    expect("20 passes it over", ring_lookup(other, words, 20, 52), RING_OK, 4, 52, 20, 0, 1);
    expect("the ring is sound", ring_audit(other, words), RING_OK, 4, 6, 6, 6, RING_VERDICT_SOUND);
}
