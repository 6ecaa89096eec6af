/* Document 02's Req 07 and Req 08, a function each, as requests.c has the earlier ones and requests_09.c the later. */

#include "firmware.h"
#include "check.h"
#include "layout.h"

/* Tables to try things on and to compare with; many identifiers; an image. */
static uint32_t other[RING_TABLE_WORDS_MOST], kept[RING_TABLE_WORDS_MOST], many[RING_MEMBERS_MOST];
static uint8_t image[RING_IMAGE_BYTES_MOST];
static const size_t words = RING_TABLE_WORDS_MOST;
static const uint32_t ids[] = {10, 20, 30, 40};

/* Are these the step counts of the members, in order, and no others? The header's word is 0 beside them. */
#define COUNTS(...) (const uint32_t[]){__VA_ARGS__}, sizeof((const uint32_t[]){__VA_ARGS__}) / sizeof(uint32_t)
static int counts_are(const uint32_t *table, const uint32_t *counts, size_t count)
{
    size_t place;
    if (table[RING_MEMBERS] != count) return 0;
    for (place = 0; place < table[RING_MEMBERS]; place++)
        if (table[RING_STEPS(table[RING_R], place)] != counts[place]) return 0;
    return table[RING_ZERO] == 0;
}

/* Has each member's step count grown by at least and at most so many? */
static int each_grew(const uint32_t *before, const uint32_t *after, uint32_t least, uint32_t most)
{
    size_t place;
    for (place = 0; place < before[RING_MEMBERS]; place++) {
        const size_t at = RING_STEPS(before[RING_R], place);
        if (after[at] - before[at] < least || after[at] - before[at] > most) return 0;
    }
    return after[RING_ZERO] == 0;
}

/* Tables and images of layout 1, which had one step count, in the header. Two of its tables are well-formed by chance. */
static void older_layout(void)
{
    const uint32_t one[] = {1, 1, 0, 5, 5, 0, 0, 5, 77}, two[] = {1, 2, 0, 5, 9, 0, 0, 9, 9, 7, 0, 0, 0, 3, 4};
    const uint32_t ideal[] = {1, 2, 0, 5, 9, 0, 0, 9, 9, 5, 0, 0, 5, 0, 0}, counted[] = {1, 1, 1, 5, 5, 0, 0, 5, 77};
    const uint8_t five[] = {1, 0, 7, 1, 0, 1, 0, 0, 0, 0, 2, 0, 17, 0, 0, 0, 5, 0, 0, 0, 5, 0, 0, 0, 0, 0, 0, 0, 0, 5, 3, 0, 0};
    const uint8_t none[] = {1, 0, 7, 1, 0, 0, 0, 0, 0, 0, 3, 0, 0}, none_counted[] = {1, 0, 7, 1, 0, 0, 0, 0, 0, 5, 3, 0, 0};
    expect("one shelf, and a word of nobody's", ring_audit(one, 9), RING_OK, 4, 1, 1, 1, RING_VERDICT_NOT_SOUND);
    expect_true("which is a step count now", steps_of(one, 5) == 77);
    expect("without that word", ring_audit(one, 8), RING_NOT_WELL_FORMED, 0, 0, 0, 0, 0);
    expect("5 and 9", ring_audit(two, 15), RING_OK, 4, 2, 1, 0, RING_VERDICT_NOT_SOUND);
    expect_true("are 5 and 7", id_at(two, 0) == 5 && id_at(two, 1) == 7 && counts_are(two, COUNTS(9, 4)));
    expect("an ideal one", ring_audit(ideal, 15), RING_NOT_WELL_FORMED, 0, 0, 0, 0, 0);
    expect("one with a step", ring_audit(counted, 9), RING_NOT_WELL_FORMED, 0, 0, 0, 0, 0);
    memcpy(kept, other, sizeof kept);
    expect("an image with a shelf", ring_image_read(other, words, five, sizeof five), RING_NO_IMAGE, 0, 0, 0, 0, 0);
    expect("its second field", ring_image_field(five, sizeof five, IMAGE_MEMBERS), RING_NO_IMAGE, 0, 0, 0, 0, 0);
    expect("one without, but with steps", ring_image_read(other, words, none_counted, sizeof none_counted), RING_NO_IMAGE, 0, 0, 0, 0, 0);
    expect_same("nothing is read", kept, other);
    expect("one without either", ring_image_read(other, words, none, sizeof none), RING_OK, 1, 0, 0, 0, 0);
}

/* Again, look and done count for the shelf that steps, and nothing else does; records that move keep their counts; a shelf that joins again starts
   at 0; the largest number stays. Leaves 20, 22, 25, 30 and 40 in other, with the counts 2, 1, 4294967295, 0 and 1. */
static void own_steps(void)
{
    memset(other, 255, sizeof other);
    expect("new", ring_new(other, words, 2, ids, 4), RING_OK, 1, 4, 0, 0, 0);
    expect("25 joins", ring_join(other, words, 25, 20), RING_OK, 1, 5, 0, 0, 0);
    expect_true("all begin at 0", counts_are(other, COUNTS(0, 0, 0, 0, 0)));
    expect("25 is done", ring_stabilize(other, words, 25), RING_OK, 2, RING_DONE, 30, 0, 0);
    expect_true("by a step of its own", counts_are(other, COUNTS(0, 0, 1, 0, 0)));
    expect("a notice is no step", ring_rectify(other, words, 30, 25), RING_OK, 1, 1, 0, 0, 0);
    expect("20 looks at 25", ring_stabilize(other, words, 20), RING_OK, 2, RING_LOOK, 25, 0, 0);
    expect_true("which counts", counts_are(other, COUNTS(0, 1, 1, 0, 0)));
    expect("and is done", ring_stabilize(other, words, 20), RING_OK, 2, RING_DONE, 25, 0, 0);
    expect("10 goes", ring_leave(other, words, 10), RING_OK, 1, 4, 0, 0, 0);
    expect_true("the others keep theirs", counts_are(other, COUNTS(2, 1, 0, 0)));
    expect("40 drops it", ring_stabilize(other, words, 40), RING_OK, 1, RING_AGAIN, 0, 0, 0);
    expect("22 joins between them", ring_join(other, words, 22, 20), RING_OK, 1, 5, 0, 0, 0);
    expect_true("and they keep theirs", counts_are(other, COUNTS(2, 0, 1, 0, 1)));
    memcpy(kept, other, sizeof kept);
    expect("a step of no member", ring_stabilize(other, words, 26), RING_NO_MEMBER, 0, 0, 0, 0, 0);
    expect("a step on no table", ring_stabilize(other, RING_TABLE_WORDS(2, 5) - 1, 25), RING_NOT_WELL_FORMED, 0, 0, 0, 0, 0);
    expect("a member's join", ring_join(other, words, 25, 20), RING_ALREADY_MEMBER, 0, 0, 0, 0, 0);
    expect("a settle without a round", ring_settle(other, words, 0), RING_OK, 3, 0, RING_VERDICT_SOUND, 0, 0);
    expect("a lookup", ring_lookup(other, words, 40, 25), RING_OK, 4, 25, 20, 1, 0);
    expect_same("count nothing", kept, other);
    expect("25 is lost", ring_fail(other, words, 25), RING_OK, 1, 4, 0, 0, 0);
    expect("22 drops it", ring_stabilize(other, words, 22), RING_OK, 1, RING_AGAIN, 0, 0, 0);
    expect("25 joins again", ring_join(other, words, 25, 22), RING_OK, 1, 5, 0, 0, 0);
    expect_true("and starts at 0", counts_are(other, COUNTS(2, 1, 0, 0, 1)));
    *steps_at(other, 2) = 4294967294u;
    expect("a step to the largest number", ring_stabilize(other, words, 25), RING_OK, 2, RING_DONE, 30, 0, 0);
    expect_true("counts", counts_are(other, COUNTS(2, 1, 4294967295u, 0, 1)));
    expect("the next is made", ring_stabilize(other, words, 25), RING_OK, 2, RING_DONE, 30, 0, 0);
    expect_true("and the count stays", counts_are(other, COUNTS(2, 1, 4294967295u, 0, 1)));
}

/* The image of that table has the counts. The 0 of its first field is judged by a whole reading, and not where the field is handed out. In the
   header another number makes the table none; new makes it 0, and all counts with it. */
static void header_zero(void)
{
    const size_t bytes = RING_IMAGE_BYTES(2, 5);
    size_t i;
    memset(kept, 255, sizeof kept), no_members(kept, 2);
    expect("an image", ring_image_write(other, words, image, sizeof image), RING_OK, 1, (uint32_t)bytes, 0, 0, 0);
    expect("read", ring_image_read(kept, words, image, bytes), RING_OK, 1, 5, 0, 0, 0);
    expect_true("has the counts", counts_are(kept, COUNTS(2, 1, 4294967295u, 0, 1)));
    *steps_at(kept, 1) = 7;
    expect("alike with another", ring_alike(kept, words, other, words), RING_OK, 1, 1, 0, 0, 0);
    for (i = IMAGE_MEMBERS - 4; i < IMAGE_MEMBERS; i++) {
        image[i] = 1;
        expect("another number there", ring_image_read(kept, words, image, bytes), RING_NO_IMAGE, 0, 0, 0, 0, 0);
        expect("in the field", ring_image_field(image, bytes, 0), RING_OK, 4, RING_TAG_TABLE, FIELD_HEAD, FIRST_LENGTH, IMAGE_MEMBERS);
        image[i] = 0;
    }
    expect_true("reads nothing", counts_are(kept, COUNTS(2, 7, 4294967295u, 0, 1)));
    expect("with 0 again", ring_image_read(kept, words, image, bytes), RING_OK, 1, 5, 0, 0, 0);

    other[RING_ZERO] = 4294967295u;
    expect("the largest number in the header", ring_audit(other, words), RING_NOT_WELL_FORMED, 0, 0, 0, 0, 0);
    other[RING_ZERO] = 1;
    memcpy(kept, other, sizeof kept);
    expect("1 there", ring_audit(other, words), RING_NOT_WELL_FORMED, 0, 0, 0, 0, 0);
    expect("no step of it", ring_stabilize(other, words, 25), RING_NOT_WELL_FORMED, 0, 0, 0, 0, 0);
    expect("no round of it", ring_round(other, words), RING_NOT_WELL_FORMED, 0, 0, 0, 0, 0);
    expect("no loss", ring_fail(other, words, 25), RING_NOT_WELL_FORMED, 0, 0, 0, 0, 0);
    expect("no image of it", ring_image_write(other, words, image, sizeof image), RING_NOT_WELL_FORMED, 0, 0, 0, 0, 0);
    expect_same("it stays", kept, other);
    expect("new again", ring_new(other, words, 2, ids, 4), RING_OK, 1, 4, 0, 0, 0);
    expect_true("all at 0 again", counts_are(other, COUNTS(0, 0, 0, 0)));
}

/* Every second shelf of the settled ring goes, and 25 awaits the lost 27. In a round it takes r + 2 steps, the others drop an entry, look and are
   done; settle's second round is one step each. The largest number stays in rounds too. */
static void steps_of_rounds(const uint32_t *table)
{
    struct ring_answer a;
    size_t i;
    memcpy(other, table, sizeof other);
    for (i = 0; i < 52; i++) ring_leave(other, words, id_at(other, i));
    set_pending(other, 0, 1, 27);
    memcpy(kept, other, sizeof kept);
    expect("a round", ring_round(other, words), RING_OK, 1, RING_VERDICT_SOUND, 0, 0, 0);
    expect_true("1 to r + 2 steps a shelf", each_grew(kept, other, 1, 4));
    expect_true("r + 2 of 25, three of the last", steps_of(other, 25) - steps_of(kept, 25) == 4 && steps_of(other, 1693) - steps_of(kept, 1693) == 3);
    memcpy(other, kept, sizeof other);
    a = ring_settle(other, words, 255);
    expect("a settle of two rounds", a, RING_OK, 3, 2, RING_VERDICT_IDEAL, 52, 0);
    expect_true("as many as rounds at least, r + 2 times that at most", each_grew(kept, other, a.values[0], 4 * a.values[0]));
    ring_new(other, words, 2, ids, 4);
    for (i = 0; i < 4; i++) *steps_at(other, i) = 4294967292u + (uint32_t)i;
    expect("two rounds", ring_round(other, words), RING_OK, 1, RING_VERDICT_IDEAL, 0, 0, 0);
    expect("of four shelves", ring_round(other, words), RING_OK, 1, RING_VERDICT_IDEAL, 0, 0, 0);
    expect_true("stop there", counts_are(other, COUNTS(4294967294u, 4294967295u, 4294967295u, 4294967295u)));
}

/* A loss frees r + 5 words, and a join needs them; the last record that the longest table has room for. */
static void words_of_records(void)
{
    size_t i;
    memset(other, 255, sizeof other), ring_new(other, words, 2, ids, 4);
    *steps_at(other, 3) = 9;
    expect("20 is lost", ring_fail(other, words, 20), RING_OK, 1, 3, 0, 0, 0);
    for (i = 3 + 3 * 7; i < 3 + 4 * 7 && other[i] == 0;) i++;
    expect_true("seven words become 0, and no more", i == 3 + 4 * 7 && other[i] == 4294967295u && other[3 + 3 * 7 - 1] == 9);
    memset(other, 255, sizeof other), ring_new(other, words, 2, ids, 4);
    expect("six words after the last record", ring_join(other, 3 + 4 * 7 + 6, 25, 20), RING_NO_ROOM, 0, 0, 0, 0, 0);
    expect("seven", ring_join(other, 3 + 4 * 7 + 7, 25, 20), RING_OK, 1, 5, 0, 0, 0);
    expect_true("and no more are taken", other[3 + 5 * 7 - 1] == 0 && other[3 + 5 * 7] == 4294967295u);
    count_up(many, 255, 4), ring_new(other, words, 8, many, 255);
    expect("no room for the last of 256", ring_join(other, 3330, 1017, 1016), RING_NO_ROOM, 0, 0, 0, 0, 0);
    expect("room for it", ring_join(other, 3331, 1017, 1016), RING_OK, 1, 256, 0, 0, 0);
}

/* Req 07: steps counted by shelf. Two readings tell which shelf does not stabilize: all but 1007 take their turns, while 22 joins below it. */
void counted_by_shelf(const uint32_t *table)
{
    const uint32_t first = steps_of(table, 1007);
    size_t i, undone = 0, same = 0;
    own_steps();
    header_zero();
    older_layout();
    steps_of_rounds(table);
    words_of_records();

    memcpy(other, table, sizeof other);
    expect("22 joins", ring_join(other, words, 22, 20), RING_OK, 1, 105, 0, 0, 0);
    for (i = 0; i < 105; i++) undone += id_at(other, i) != 1007 && turn_of(other, words, (uint32_t)i) == 0;
    for (i = 0; i < 104; i++) same += steps_of(other, id_at(table, i)) == steps_of(table, id_at(table, i));
    expect_true("one shelf has not stabilized", undone == 0 && same == 1 && steps_of(other, 22) > 0);
    expect_true("it is 1007", steps_of(other, 1007) == first);
    expect_true("its turn is a step", turn_of(other, words, place_of(other, 1007)) == 1 && steps_of(other, 1007) == first + 1);
}

/* Alike's answer, the same both ways round: the number of a refusal, or RING_OK and 1 for yes, 0 for no. */
static void expect_alike(const char *what, const uint32_t *a, size_t a_words, const uint32_t *b, size_t b_words, uint32_t number, uint32_t yes)
{
    expect(what, ring_alike(a, a_words, b, b_words), number, number == RING_OK, yes, 0, 0, 0);
    expect(what, ring_alike(b, b_words, a, a_words), number, number == RING_OK, yes, 0, 0, 0);
}

/* The same of other and of kept, which has one word another, and gets it back. */
static void expect_with(const char *what, size_t at, uint32_t value, uint32_t yes)
{
    const uint32_t was = kept[at];
    kept[at] = value;
    expect_alike(what, other, words, kept, words, RING_OK, yes);
    kept[at] = was;
}

/* The settled ring and a copy of it, in both of which 1329 awaits 1331: the copy has each word of that record but pending another in turn; pending
   in the next record, whose shelf awaits nobody. */
static void words_of_one(const uint32_t *table)
{
    const uint32_t place = place_of(table, 1329);
    const size_t at = RING_RECORD(2, place), steps = RING_STEPS(2, place), next = RING_RECORD(2, place + 1), after = RING_TABLE_WORDS(2, 104);
    memcpy(other, table, sizeof other);
    expect_alike("a copy", table, words, other, words, RING_OK, 1);
    expect_same("stays one", table, other);
    expect_alike("a table and itself", table, words, table, words, RING_OK, 1);
    set_pending(other, place, 1, 1331), memcpy(kept, other, sizeof kept);
    expect_alike("a copy with a step pending", other, words, kept, words, RING_OK, 1);
    expect_alike("nothing pending, no candidate", table, words, kept, words, RING_OK, 0);
    expect_with("another identifier", at + RING_ID, 1330, 0);
    expect_with("another predecessor", at + RING_PREDECESSOR, 1323, 0);
    expect_with("another candidate", at + RING_CANDIDATE, 1332, 0);
    expect_with("another first entry", at + RING_LIST, 1335, 0);
    expect_with("another second entry", at + RING_LIST + 1, 1344, 0);
    expect_with("another step count", steps, kept[steps] + 1, 1);
    expect_with("the largest step count", steps, 4294967295u, 1);
    expect_with("pending alone, with candidate 0", next + RING_PENDING, 1, 0);
    expect_with("a word after the last record", after, kept[after] + 1, 1);
    memset(kept + after, 255, sizeof kept - after * sizeof *kept);
    expect_alike("all of them", other, words, kept, words, RING_OK, 1);
}

/* Each word of each record changed by itself, in a ring in which every second shelf awaits one that is no member: step counts are not compared; a
   candidate where nothing is pending makes the table none; every other word is told. Returns how many are answered so, both ways round. */
static size_t words_told(uint32_t r, size_t members)
{
    size_t at, place, told = 0;
    count_up(many, members, 4), ring_new(other, words, r, many, members);
    for (place = 0; place < members; place += 2) set_pending(other, place, 1, many[place] + 2);
    memcpy(kept, other, sizeof kept);
    for (at = RING_HEADER_WORDS; at < RING_TABLE_WORDS(r, members); at++) {
        const size_t word = (at - RING_HEADER_WORDS) % RING_RECORD_WORDS(r), of = (at - RING_HEADER_WORDS) / RING_RECORD_WORDS(r);
        const int none = word == (of % 2 == 0 ? RING_PENDING : RING_CANDIDATE);
        const struct ring_answer due = {none ? RING_NOT_WELL_FORMED : RING_OK, {at == RING_STEPS(r, of), 0, 0, 0}, !none};
        struct ring_answer a, b;
        kept[at] = word == RING_PENDING ? 1 - kept[at] : kept[at] + 1;
        a = ring_alike(other, words, kept, words), b = ring_alike(kept, words, other, words);
        kept[at] = other[at];
        told += memcmp(&a, &due, sizeof due) == 0 && memcmp(&b, &due, sizeof due) == 0;
    }
    return told;
}

/* Another r, and other members; slices of different length, where the same join is refused by 5 in one and accepted in the other; refusals. */
static void sizes_of_two(void)
{
    const uint32_t one[] = {1, 1, 0, 5, 5, 0, 0, 5, 77, 9}, two[] = {2, 1, 0, 5, 5, 0, 0, 5, 77, 9}, none[] = {1, 0, 0, 5, 5, 0, 0, 5, 77, 9};
    const size_t four = RING_TABLE_WORDS(2, 4), five = RING_TABLE_WORDS(2, 5);
    expect_alike("r alone is another", one, 10, two, 10, RING_OK, 0);
    expect_alike("the member count alone", one, 10, none, 10, RING_OK, 0);
    expect_alike("as short as can be", one, 9, one, 10, RING_OK, 1);
    expect_alike("no members", none, 3, none, 10, RING_OK, 1);
    no_members(other, 2);
    expect_alike("no members, another r", none, 3, other, words, RING_OK, 0);
    ring_new(other, words, 1, ids, 4), ring_new(kept, words, 2, ids, 4);
    expect_alike("four shelves, another r", other, words, kept, words, RING_OK, 0);
    ring_new(other, words, 2, ids, 4), kept[RING_MEMBERS] = 3;
    expect_alike("without the last", other, words, kept, words, RING_OK, 0);
    kept[RING_MEMBERS] = 4;
    expect_alike("a longer slice", other, four, kept, five, RING_OK, 1);
    expect("no room in the shorter", ring_join(other, four, 25, 20), RING_NO_ROOM, 0, 0, 0, 0, 0);
    expect("room in the longer", ring_join(kept, five, 25, 20), RING_OK, 1, 5, 0, 0, 0);
    expect_alike("with another member", other, four, kept, five, RING_OK, 0);

    expect_alike("one is cut short", other, four - 1, kept, five, RING_NOT_WELL_FORMED, 0);
    expect_alike("the other is", other, four, kept, five - 1, RING_NOT_WELL_FORMED, 0);
    expect_alike("both are", other, four - 1, kept, five - 1, RING_NOT_WELL_FORMED, 0);
    expect_alike("one of another r", one, 8, kept, five, RING_NOT_WELL_FORMED, 0);
    expect_alike("no header", other, RING_HEADER_WORDS - 1, other, four, RING_NOT_WELL_FORMED, 0);
    ring_new(kept, words, 2, ids, 4), record_at(kept, 0)[RING_PREDECESSOR] = 39;
    expect_alike("the first record differs", other, four, kept, four, RING_OK, 0);
    record_at(other, 3)[RING_PENDING] = 2;
    expect_alike("and the last is none", other, four, kept, four, RING_NOT_WELL_FORMED, 0);
    expect_alike("none and itself", other, four, other, four, RING_NOT_WELL_FORMED, 0);
}

/* The controller swap: tables that differ in one predecessor, and a step that tells them apart. Then two that neither a join nor a step tells apart:
   1 awaits 2 or 3, and nobody can join, so that its next step forgets either. Where there is room for 2, they are told. */
static void swapped(void)
{
    const uint32_t zero = 0, one = 1;
    const size_t full = RING_TABLE_WORDS(1, 2), room = RING_TABLE_WORDS(1, 3);
    ring_new(other, words, 2, ids, 4), ring_new(kept, words, 2, ids, 4);
    record_at(kept, 2)[RING_PREDECESSOR] = 25;
    expect_alike("30 has another predecessor", other, words, kept, words, RING_OK, 0);
    expect("20 is done", ring_stabilize(other, words, 20), RING_OK, 2, RING_DONE, 30, 0, 0);
    expect("20 looks at 25", ring_stabilize(kept, words, 20), RING_OK, 2, RING_LOOK, 25, 0, 0);
    expect("30 takes its notice", ring_rectify(kept, words, 30, 20), RING_OK, 1, 1, 0, 0, 0);
    expect_alike("a step is pending still", other, words, kept, words, RING_OK, 0);
    expect("25 is forgotten", ring_stabilize(kept, words, 20), RING_OK, 2, RING_DONE, 30, 0, 0);
    expect_alike("alike, by one step more", other, words, kept, words, RING_OK, 1);
    expect_true("which is counted", steps_of(other, 20) == 1 && steps_of(kept, 20) == 2);

    no_members(other, 1), add_member(other, 0, 1, &one), add_member(other, 1, 0, &zero);
    memcpy(kept, other, sizeof kept);
    set_pending(other, 1, 1, 2), set_pending(kept, 1, 1, 3);
    expect("1 awaits 2", ring_audit(other, full), RING_OK, 4, 2, 2, 2, RING_VERDICT_IDEAL);
    expect("1 awaits 3", ring_audit(kept, full), RING_OK, 4, 2, 2, 2, RING_VERDICT_IDEAL);
    expect_alike("another dead candidate", other, full, kept, full, RING_OK, 0);
    expect("no room for 2", ring_join(other, full, 2, 1), RING_NO_ROOM, 0, 0, 0, 0, 0);
    expect("in neither", ring_join(kept, full, 2, 1), RING_NO_ROOM, 0, 0, 0, 0, 0);
    expect("1 forgets 2", ring_stabilize(other, full, 1), RING_OK, 2, RING_DONE, 0, 0, 0);
    expect("1 forgets 3", ring_stabilize(kept, full, 1), RING_OK, 2, RING_DONE, 0, 0, 0);
    expect_alike("alike then", other, full, kept, full, RING_OK, 1);
    set_pending(other, 1, 1, 2), set_pending(kept, 1, 1, 3);
    expect("room for 2", ring_join(other, room, 2, 1), RING_OK, 1, 3, 0, 0, 0);
    expect("in both", ring_join(kept, room, 2, 1), RING_OK, 1, 3, 0, 0, 0);
    expect("1 takes it up", ring_stabilize(other, room, 1), RING_OK, 2, RING_DONE, 2, 0, 0);
    expect("and in the other does not", ring_stabilize(kept, room, 1), RING_OK, 2, RING_DONE, 0, 0, 0);
    expect_alike("lists differ", other, room, kept, room, RING_OK, 0);
}

/* The ten calls whose answers a yes promises, and how often each is drawn, of 17. Settle with windows gets none to two of them, or an odd number of
   words, and two minutes, which need not rise. */
enum { JOIN, LEAVE, FAIL, STABILIZE, RECTIFY, ROUND, SETTLE, SETTLE_AT, LOOKUP, AUDIT, KINDS };
static const uint32_t often[KINDS] = {4, 2, 1, 3, 2, 1, 1, 1, 1, 1};
static struct ring_answer call_of(uint32_t kind, uint32_t *table, size_t size, uint32_t n, uint32_t m)
{
    const uint32_t windows[] = {4, 12, 20, 2}, minutes[] = {n, m};
    switch (kind) {
    case JOIN: return ring_join(table, size, m, n);
    case LEAVE: return ring_leave(table, size, n);
    case FAIL: return ring_fail(table, size, n);
    case STABILIZE: return ring_stabilize(table, size, n);
    case RECTIFY: return ring_rectify(table, size, n, m);
    case ROUND: return ring_round(table, size);
    case SETTLE: return ring_settle(table, size, m % 4);
    case SETTLE_AT: return ring_settle_at(table, size, windows, m % 5, minutes, 2);
    case LOOKUP: return ring_lookup(table, size, n, m);
    default: return ring_audit(table, size);
    }
}

/* Do the other calls that tell something of a table answer the same of other and of kept? Of their images all bytes but step counts are compared. */
static int told_same(size_t size, uint32_t n)
{
    static struct ring_finding findings[2][RING_MEMBERS_MOST];
    static uint8_t images[2][RING_IMAGE_BYTES_MOST];
    struct ring_answer found[2], principal[2], written[2];
    struct ring_runs held[2];
    size_t i, place;
    count_up(many, 16, 2);
    for (i = 0; i < 2; i++) {
        const uint32_t *const table = i == 0 ? other : kept;
        found[i] = ring_findings(table, size, findings[i], RING_MEMBERS_MOST);
        held[i] = ring_held(table, size, n, many, 16);
        principal[i] = ring_principal(table, size, n);
        written[i] = ring_image_write(table, size, images[i], RING_IMAGE_BYTES_MOST);
        for (place = 1; place <= table[RING_MEMBERS]; place++) memset(images[i] + RING_IMAGE_BYTES(table[RING_R], place) - FIELD_HEAD - 4, 0, 4);
    }
    return memcmp(&found[0], &found[1], sizeof found[0]) == 0 && memcmp(findings[0], findings[1], sizeof findings[0]) == 0 &&
           memcmp(&held[0], &held[1], sizeof held[0]) == 0 && memcmp(&principal[0], &principal[1], sizeof principal[0]) == 0 &&
           memcmp(&written[0], &written[1], sizeof written[0]) == 0 && memcmp(images[0], images[1], written[0].values[0]) == 0;
}

/* The next of a row of numbers that is always the same, below a bound. */
static uint32_t drawn(uint32_t below)
{
    static uint32_t row = 8;
    row = row * 1664525u + 1013904223u;
    return (row >> 8) % below;
}

/* A set of small numbers, a bit each. */
#define BIT(n) (1u << (n))

/* Twelve pairs of rings that differ in step counts and in words of nobody's, in slices with room for one shelf more, get a hundred calls each, the
   same on both. Each is answered the same, and the two are alike after it. */
static void driven_alike(void)
{
    uint32_t pair, i, numbers = 0, accepted = 0, replies = 0, same = 0, counts = 0;
    for (pair = 0; pair < 12; pair++) {
        const uint32_t r = 1 + pair % 3, members = r + 3;
        const size_t size = RING_TABLE_WORDS(r, members + 1);
        memset(other, 0, sizeof other), memset(kept, 255, sizeof kept), count_up(many, members, 4);
        ring_new(other, size, r, many, members), ring_new(kept, size, r, many, members);
        for (i = 0; i < members; i++) *steps_at(kept, i) = 4294967295u - i;
        for (i = 0; i < 100; i++) {
            uint32_t kind = 0, n = drawn(32), m = drawn(32), draw = drawn(17);
            struct ring_answer a, b, alike;
            while (draw >= often[kind]) draw -= often[kind++];
            if (other[RING_MEMBERS] > 0 && drawn(4) > 0) n = id_at(other, n % other[RING_MEMBERS]);
            a = call_of(kind, other, size, n, m), b = call_of(kind, kept, size, n, m), alike = ring_alike(other, size, kept, size);
            same += memcmp(&a, &b, sizeof a) == 0 && alike.number == RING_OK && alike.values[0] == 1 && told_same(size, n);
            counts += memcmp(other, kept, RING_TABLE_WORDS(r, other[RING_MEMBERS]) * sizeof *other) != 0;
            numbers |= BIT(a.number);
            if (a.number == RING_OK) accepted |= BIT(kind);
            if (a.number == RING_OK && kind == STABILIZE) replies |= BIT(a.values[0]);
        }
    }
    expect_true("1,200 calls answered the same, with a yes after each", same == 1200);
    expect_true("step counts differ for most of them", counts > 600);
    expect_true("each of the ten is accepted", accepted == BIT(KINDS) - 1);
    expect_true("steps reply all three", replies == (BIT(RING_AGAIN) | BIT(RING_LOOK) | BIT(RING_DONE)));
    expect_true("each of their numbers but 1 is met",
                numbers ==
                    (BIT(RING_OK) | BIT(RING_ALREADY_MEMBER) | BIT(RING_NO_MEMBER) | BIT(RING_NOT_BETWEEN) | BIT(RING_NO_ROOM) | BIT(RING_CUTS_OFF) |
                     BIT(RING_TOO_FEW_PRINCIPALS) | BIT(RING_NO_LIVE_ENTRY) | BIT(RING_DEAD_FIRST_ENTRY) | BIT(RING_NOT_SOUND) |
                     BIT(RING_BAD_WINDOWS) | BIT(RING_BAD_MINUTES)));
}

/* Req 08: finer alike. */
void finer_alike(const uint32_t *table)
{
    uint32_t r;
    words_of_one(table);
    for (r = 1; r <= RING_R_MOST; r++) expect_true("each word of a ring", words_told(r, r + 2) == (r + 2) * RING_RECORD_WORDS(r));
    expect_true("each word of a full table", words_told(RING_R_MOST, RING_MEMBERS_MOST) == RING_MEMBERS_MOST * RING_RECORD_WORDS(RING_R_MOST));
    sizes_of_two();
    swapped();
    driven_alike();
}
