/* A firmware main loop in small: it starts a ring, lets shelves join, stabilize and leave, settles the ring after churn, in service hours too, tries
   a join again that was declined behind a dead neighbour, pulls neighbouring shelves from a ring with verdict 2, saves and restores the table, looks
   keys up, and asks which keys a shelf holds, whether it is a principal, how stale the lists are, which shelf does not stabilize, and whether a copy
   is alike. Every call of include/ring.h is used, and each answer is compared with what documents 01 and 02 say: document 01's calls here, document
   02's requests in requests.c, requests_07.c and requests_09.c. The first functions are what the header tells one to do: a member's turn, a join, a
   loss, a reading of a step count. Exit status 0, and 'firmware: N checks, 0 wrong' on standard output. */

#include "firmware.h"
#include "check.h"
#include "layout.h"

int checks, wrong;

/* The turn of a shelf: a pending step is finished and its notice delivered, then stabilize steps until done, and the notice to the shelf named;
   a notice to no member is refused, and lost. r + 1 steps after the pending one are enough on a sound table; on another they end the turn all
   the same. Returns the steps made, 0 where done did not come. */
uint32_t turn_of(uint32_t *table, size_t words, uint32_t place)
{
    const uint32_t r = table[RING_R], n = id_at(table, place), pending = record_at(table, place)[RING_PENDING];
    uint32_t step, done = 0;
    for (step = 1; step <= r + 1 + pending; step++) {
        const struct ring_answer a = ring_stabilize(table, words, n);
        if (a.number != RING_OK) return 0;
        if (a.values[0] == RING_DONE) {
            ring_rectify(table, words, a.values[1], n);
            if (done++ == pending) return step;
        }
    }
    return 0;
}

/* The turns of all shelves, which are a round. Returns the steps made, 0 where one was not done. */
static uint32_t turns_of(uint32_t *table, size_t words)
{
    uint32_t place, steps, all = 0;
    for (place = 0; place < table[RING_MEMBERS]; place++, all += steps)
        if ((steps = turn_of(table, words, place)) == 0) return 0;
    return all;
}

/* How many rounds are enough: members - principals + r, by the audit. */
uint32_t rounds_enough(const uint32_t *table, size_t words)
{
    const struct ring_answer a = ring_audit(table, words);
    return a.values[0] - a.values[1] + table[RING_R];
}

/* The place of a member. */
uint32_t place_of(const uint32_t *table, uint32_t n)
{
    uint32_t place = 0;
    while (place < table[RING_MEMBERS] && id_at(table, place) != n) place++;
    return place;
}

/* A shelf joins: by the member that a lookup of it stands at. Where that one's first entry is dead, the join is declined by 4 or 13: the member
   takes its turn, and the shelf is looked up again. On a sound table that ends with the join or without room, since a turn leaves a live first
   entry; on another the tries end all the same. Returns the number of the last call. */
uint32_t join_anywhere(uint32_t *table, size_t words, uint32_t j)
{
    uint32_t tries, number = RING_NO_MEMBER;
    for (tries = 0; tries <= table[RING_MEMBERS] && table[RING_MEMBERS] > 0; tries++) {
        const struct ring_answer a = ring_lookup(table, words, id_at(table, 0), j);
        if (a.number != RING_OK) return a.number;
        number = ring_join(table, words, j, a.values[1]).number;
        if (number != RING_NOT_BETWEEN && number != RING_DEAD_FIRST_ENTRY) return number;
        turn_of(table, words, place_of(table, a.values[1]));
    }
    return number;
}

/* A shelf is lost: recorded as a withdrawal where that is granted, else as a loss, after which the verdict is 0. Returns the number of the
   withdrawal. */
uint32_t report_loss(uint32_t *table, size_t words, uint32_t n)
{
    const uint32_t number = ring_leave(table, words, n).number;
    if (number == RING_CUTS_OFF || number == RING_TOO_FEW_PRINCIPALS) ring_fail(table, words, n);
    return number;
}

/* A reading of a member's step count: its place is looked for by the identifier, since records move as shelves join and go. */
uint32_t steps_of(const uint32_t *table, uint32_t n)
{
    return table[RING_STEPS(table[RING_R], place_of(table, n))];
}

/* The placement screen: each member's keys, each looked up from every member. Returns how many keys were shown, 0 where one was shown twice,
   lies past the list, has another owner, or a dead entry was passed over. The table's verdict is 2; there are at most 64 keys. */
size_t screen(const uint32_t *table, size_t words, const uint32_t *keys, size_t count)
{
    unsigned char shown[64] = {0};
    size_t member, from, run, at, all = 0;
    struct ring_answer a;
    for (member = 0; member < table[RING_MEMBERS]; member++) {
        const uint32_t n = id_at(table, member);
        const struct ring_runs held = ring_held(table, words, n, keys, count);
        for (run = 0; run < held.runs && run < 2; run++)
            for (at = held.start[run]; at < held.end[run]; at++) {
                if (at >= count || shown[at]++) return 0;
                for (from = 0; from < table[RING_MEMBERS]; from++)
                    if ((a = ring_lookup(table, words, id_at(table, from), keys[at])).values[0] != n || a.values[3] != 0) return 0;
                all++;
            }
    }
    return all;
}

/* So many identifiers or keys, from 0 on, this far apart. */
void count_up(uint32_t *ids, size_t count, uint32_t gap)
{
    size_t i;
    for (i = 0; i < count; i++) ids[i] = gap * (uint32_t)i;
}

/* Asks each member whether it is a principal. Returns how many are, or one more than there can be members where the audit counts another number,
   a principal did not take all pairs, or another took none or more than all. */
uint32_t principals(const uint32_t *table, size_t words)
{
    const uint32_t all = table[RING_MEMBERS] * table[RING_R];
    uint32_t member, count = 0;
    for (member = 0; member < table[RING_MEMBERS]; member++) {
        const struct ring_answer a = ring_principal(table, words, id_at(table, member));
        if (a.number != RING_OK || a.count != 2 || a.values[0] > 1) return RING_MEMBERS_MOST + 1;
        if (a.values[0] == 1 ? a.values[1] != all : a.values[1] == 0 || a.values[1] > all) return RING_MEMBERS_MOST + 1;
        count += a.values[0];
    }
    return ring_audit(table, words).values[1] == count ? count : RING_MEMBERS_MOST + 1;
}

/* Again and again: on a lone member with r = 1 whose only entry is dead, each step tries the next identifier, and says again until it comes to
   the member itself. Nothing else ends it: from the identifier after the member's own it would take 4294967295 steps. */
static uint32_t agains(uint32_t *table, size_t words, uint32_t before)
{
    const uint32_t entry = 7 - before;
    uint32_t count = 0;
    no_members(table, 1), add_member(table, 7, 7, &entry);
    while (count <= before && ring_stabilize(table, words, 7).values[0] == RING_AGAIN) count++;
    return count;
}

/* The ring; tables to try things on and to compare with; an image. */
static uint32_t table[RING_TABLE_WORDS_MOST], other[RING_TABLE_WORDS_MOST], kept[RING_TABLE_WORDS_MOST];
static uint8_t image[RING_IMAGE_BYTES_MOST];
static const size_t words = RING_TABLE_WORDS_MOST;
static const uint32_t ids[] = {10, 20, 30, 40};

/* Document 01's session. */
static void session(void)
{
    expect_true("sizes", sizeof(struct ring_answer) == 24 && sizeof(struct ring_finding) == 12 && sizeof(struct ring_runs) == 40);
    expect("new", ring_new(table, words, 2, ids, 4), RING_OK, 1, 4, 0, 0, 0);
    expect("join", ring_join(table, words, 25, 20), RING_OK, 1, 5, 0, 0, 0);
    expect("stabilize 25", ring_stabilize(table, words, 25), RING_OK, 2, RING_DONE, 30, 0, 0);
    expect("rectify 30", ring_rectify(table, words, 30, 25), RING_OK, 1, 1, 0, 0, 0);
    expect("stabilize 20", ring_stabilize(table, words, 20), RING_OK, 2, RING_LOOK, 25, 0, 0);
    expect("stabilize 20 again", ring_stabilize(table, words, 20), RING_OK, 2, RING_DONE, 25, 0, 0);
    expect("audit: the second entry of 10 is still 30", ring_audit(table, words), RING_OK, 4, 5, 4, 5, RING_VERDICT_SOUND);
    memcpy(other, table, sizeof other);
    expect("a step of 10", ring_stabilize(other, words, 10), RING_OK, 2, RING_DONE, 20, 0, 0);
    expect("brings it up to date", ring_audit(other, words), RING_OK, 4, 5, 5, 5, RING_VERDICT_IDEAL);
    expect("the list of 10, with 20 and 30, skips 25", ring_principal(table, words, 25), RING_OK, 2, 0, 2, 0, 0);
    expect("no list skips 20", ring_principal(table, words, 20), RING_OK, 2, 1, 10, 0, 0);
    expect_true("four principals", principals(table, words) == 4);
    expect("join a member", ring_join(table, words, 30, 20), RING_ALREADY_MEMBER, 0, 0, 0, 0, 0);
    expect("leave 10", ring_leave(table, words, 10), RING_OK, 1, 4, 0, 0, 0);
    memcpy(kept, table, sizeof kept);
    expect("leave 20", ring_leave(table, words, 20), RING_CUTS_OFF, 0, 0, 0, 0, 0);
    expect_same("a refusal writes nothing", kept, table);
    expect("stabilize 40", ring_stabilize(table, words, 40), RING_OK, 1, RING_AGAIN, 0, 0, 0);
    expect("lookup", ring_lookup(table, words, 30, 15), RING_OK, 4, 20, 40, 1, 0);
}

/* Document 02, Req 05. Churn: shelves join one after the other, and the ring settles. Verdict 2 says that all entries are up to date, the second
   ones too. The ring of 104 shelves that this leaves in table is used from here on, and not written. */
static void settling_churn(void)
{
    struct ring_answer a;
    size_t i, joined = 0;
    uint32_t enough;
    for (i = 0; i < 100; i++)
        joined += ring_join(table, words, 1000 + 7 * (uint32_t)i, i == 0 ? 40 : 1000 + 7 * ((uint32_t)i - 1)).number == RING_OK;
    expect_true("each of 100 joins is accepted", joined == 100);
    enough = rounds_enough(table, words);
    memcpy(kept, table, sizeof kept);
    expect("limit 0 tells the verdict", ring_settle(table, words, 0), RING_OK, 3, 0, RING_VERDICT_SOUND, 0, 0);
    expect_same("and runs no round", kept, table);
    memcpy(other, table, sizeof other);
    expect_true("each shelf is done", turns_of(other, words) >= 104);
    expect("a round", ring_round(table, words), RING_OK, 1, RING_VERDICT_SOUND, 0, 0, 0);
    expect_same("is the turns of all shelves", other, table);
    memcpy(table, kept, sizeof kept);
    a = ring_settle(table, words, enough);
    expect("settle", a, RING_OK, 3, a.values[0], RING_VERDICT_IDEAL, 0, 0);
    expect_true("in no more rounds than are enough", a.values[0] > 1 && a.values[0] <= enough && enough < 104);
    memcpy(other, kept, sizeof kept);
    expect("with one round less", ring_settle(other, words, a.values[0] - 1), RING_OK, 3, a.values[0] - 1, RING_VERDICT_SOUND, 0, 0);
    expect("the last one by itself", ring_round(other, words), RING_OK, 1, RING_VERDICT_IDEAL, 0, 0, 0);
    expect_same("leads to the same table", other, table);
    memcpy(other, kept, sizeof kept);
    expect("with as many", ring_settle(other, words, a.values[0]), RING_OK, 3, a.values[0], RING_VERDICT_IDEAL, 0, 0);
    expect_same("too", other, table);
    expect("an ideal ring gets no round", ring_settle(other, words, 4294967295u), RING_OK, 3, 0, RING_VERDICT_IDEAL, 0, 0);
    expect_same("and stays", other, table);
    while (++a.values[0] <= enough) ring_round(other, words);
    memcpy(kept, other, sizeof kept);
    expect("a round after enough", ring_round(other, words), RING_OK, 1, RING_VERDICT_IDEAL, 0, 0, 0);
    for (i = 0; i < 104; i++) ++*steps_at(kept, i);
    expect_same("changes the step counts alone, each by 1", other, kept);
    expect("settled", ring_audit(table, words), RING_OK, 4, 104, 104, 104, RING_VERDICT_IDEAL);
    expect_true("all are principals", principals(table, words) == 104);
}

/* Document 01: the ring saved, looked at field by field, and restored. */
static void saved(void)
{
    const size_t bytes = RING_IMAGE_BYTES(2, 104);
    struct ring_answer a;
    size_t i, at;
    memset(other, 0, sizeof other);
    expect("image", ring_image_write(table, words, image, sizeof image), RING_OK, 1, (uint32_t)bytes, 0, 0, 0);
    expect("image too short", ring_image_write(table, words, image, bytes - 1), RING_TOO_SHORT, 0, 0, 0, 0, 0);
    expect("first field", ring_image_field(image, bytes, 0), RING_OK, 4, RING_TAG_TABLE, FIELD_HEAD, FIRST_LENGTH, IMAGE_MEMBERS);
    for (at = 0, i = 0; (a = ring_image_field(image, bytes, at)).number == RING_OK; i++) at = a.values[3];
    expect_true("fields", i == 106 && at == bytes);
    expect("its last field", ring_image_field(image, bytes, bytes - FIELD_HEAD), RING_OK, 4, RING_TAG_END, (uint32_t)bytes, 0, (uint32_t)bytes);
    expect("no field is due", ring_image_field(image, bytes, IMAGE_MEMBERS + 1), RING_NO_IMAGE, 0, 0, 0, 0, 0);
    expect("restored", ring_image_read(other, words, image, bytes), RING_OK, 1, 104, 0, 0, 0);
    expect("alike", ring_alike(table, words, other, words), RING_OK, 1, 1, 0, 0, 0);
    expect_true("the same words", memcmp(table, other, RING_TABLE_WORDS(2, 104) * sizeof *table) == 0);
    expect("cut short", ring_image_read(other, words, image, bytes - 1), RING_NO_IMAGE, 0, 0, 0, 0, 0);
    expect("one byte too many", ring_image_read(other, words, image, bytes + 1), RING_NO_IMAGE, 0, 0, 0, 0, 0);
    expect("no room for the table", ring_image_read(other, RING_TABLE_WORDS(2, 104) - 1, image, bytes), RING_TOO_SHORT, 0, 0, 0, 0, 0);
}

/* Document 01: a loss, and what the audit finds. */
static void lost(void)
{
    static struct ring_finding findings[RING_MEMBERS_MOST];
    memcpy(other, table, sizeof other);
    memcpy(kept, table, sizeof kept);
    expect("fail", ring_fail(other, words, 25), RING_OK, 1, 103, 0, 0, 0);
    expect("a withdrawal in its place", ring_leave(kept, words, 25), RING_OK, 1, 103, 0, 0, 0);
    expect_same("leaves the same words", kept, other);
    expect("unlike", ring_alike(table, words, other, words), RING_OK, 1, 0, 0, 0, 0);
    expect("findings", ring_findings(table, words, findings, RING_MEMBERS_MOST), RING_OK, 4, 104, 104, 104, RING_VERDICT_IDEAL);
    expect_true("the first finding", findings[0].id == 20 && findings[0].principal == 1 && findings[0].moves == 0);
    expect("findings too short", ring_findings(table, words, findings, 103), RING_TOO_SHORT, 0, 0, 0, 0, 0);
}

/* Document 01: the take-over choice. */
static void take_over(void)
{
    const uint32_t h_list[] = {30, 40, 10}, c_list[] = {25, 30};
    expect("take over c", ring_take_over(20, 30, 25, h_list, 3, c_list, 2), RING_OK, 3, 1, 1, 0, 0);
    expect("take over h", ring_take_over(20, 30, 35, h_list, 3, c_list, 2), RING_OK, 3, 0, 2, 0, 0);
    expect("c timed out", ring_take_over(20, 30, 25, h_list, 3, c_list, 0), RING_OK, 3, 0, 2, 0, 0);
}

/* Document 01: tables that are not sound. */
static void not_sound(void)
{
    const uint32_t opposite[] = {30, 40, 10, 20};
    size_t i;

    /* On a table that is not sound only the identifiers bound the agains. */
    expect_true("again until the member itself", agains(other, words, 100000) == 100000);
    expect("not sound", ring_audit(other, words), RING_OK, 4, 1, 1, 1, RING_VERDICT_NOT_SOUND);

    /* A loss that no withdrawal would have been granted: the audit right after it says 0. The shelves take their turns, and it says so still;
       with fewer than r + 1 of them a smaller r starts the ring anew. */
    ring_new(other, words, 2, ids, 3);
    expect("leave is not granted", ring_leave(other, words, 20), RING_TOO_FEW_PRINCIPALS, 0, 0, 0, 0, 0);
    expect_true("the loss happens all the same", report_loss(other, words, 20) == RING_TOO_FEW_PRINCIPALS && other[RING_MEMBERS] == 2);
    expect("and the verdict is 0", ring_audit(other, words), RING_OK, 4, 2, 2, 2, RING_VERDICT_NOT_SOUND);
    expect_true("two turns", turns_of(other, words) > 0);
    expect("it does not come back", ring_audit(other, words), RING_OK, 4, 2, 2, 2, RING_VERDICT_NOT_SOUND);
    expect("two do not make a ring of r = 2", ring_new(other, words, 2, opposite, 2), RING_NO_NEW_TABLE, 0, 0, 0, 0, 0);
    expect("but of r = 1", ring_new(other, words, 1, opposite, 2), RING_OK, 1, 2, 0, 0, 0);
    expect("anew", ring_audit(other, words), RING_OK, 4, 2, 2, 2, RING_VERDICT_IDEAL);

    /* The image of two rings, 10 and 30, 20 and 40, is the writing of a well-formed table. It is read, and the audit says 0. */
    no_members(kept, 1);
    for (i = 0; i < 4; i++) add_member(kept, ids[i], opposite[i], &opposite[i]);
    expect("an image of two rings", ring_image_write(kept, RING_TABLE_WORDS(1, 4), image, sizeof image), RING_OK, 1, RING_IMAGE_BYTES(1, 4), 0, 0, 0);
    expect("is read", ring_image_read(other, words, image, RING_IMAGE_BYTES(1, 4)), RING_OK, 1, 4, 0, 0, 0);
    expect("and not sound", ring_audit(other, words), RING_OK, 4, 4, 0, 4, RING_VERDICT_NOT_SOUND);
    for (i = 0; i < 4; i++) expect("each list skips the next", ring_principal(other, words, ids[(i + 1) % 4]), RING_OK, 2, 0, (uint32_t)i + 1, 0, 0);
    expect_true("no principals", principals(other, words) == 0);
}

/* The words and the bytes of layout 2: three shelves of r = 1, a step pending. A release that moves them raises RING_LAYOUT. */
#if RING_LAYOUT != 2
#error "the words and bytes below are those of layout 2"
#endif
static void layout(void)
{
    const uint32_t three[] = {1, 3, 0, 10, 0x01020304, 0, 0, 20, 5, 20, 10, 1, 25, 30, 4294967295u, 30, 20, 0, 0, 10, 0x05060708};
    const uint8_t bytes[] = {1, 0, 7, 1, 0, 3, 0, 0, 0, 0,                                                        /* the table */
                             2, 0, 21, 0, 0, 0, 10, 1, 2, 3, 4, 0, 0, 0, 0, 0, 0, 0, 0, 20, 0, 0, 0, 5,           /* 10, with five steps */
                             2, 0, 21, 0, 0, 0, 20, 0, 0, 0, 10, 1, 0, 0, 0, 25, 0, 0, 0, 30, 255, 255, 255, 255, /* 20, which awaits 25 */
                             2, 0, 21, 0, 0, 0, 30, 0, 0, 0, 20, 0, 0, 0, 0, 0, 0, 0, 0, 10, 5, 6, 7, 8,          /* 30 */
                             3, 0, 0 /* the end */};
    const size_t at = RING_RECORD(1, 1);
    expect_true("sizes of words and bytes", sizeof three == RING_TABLE_WORDS(1, 3) * sizeof *three && sizeof bytes == RING_IMAGE_BYTES(1, 3));
    expect_true("the most", RING_TABLE_WORDS(RING_R_MOST, RING_MEMBERS_MOST) == RING_TABLE_WORDS_MOST &&
                                RING_IMAGE_BYTES(RING_R_MOST, RING_MEMBERS_MOST) == RING_IMAGE_BYTES_MOST);
    expect_true("the longest", RING_TABLE_WORDS_MOST == 3331 && RING_IMAGE_BYTES_MOST == 13325);
    expect_true("the header's words", three[RING_R] == 1 && three[RING_MEMBERS] == 3 && three[RING_ZERO] == 0 && RING_HEADER_WORDS == 3);
    expect_true("a record's words", three[at + RING_ID] == 20 && three[at + RING_PREDECESSOR] == 10 && three[at + RING_PENDING] == 1 &&
                                        three[at + RING_CANDIDATE] == 25 && three[at + RING_LIST] == 30 && RING_RECORD_WORDS(1) == 6);
    expect_true("their step counts", three[RING_STEPS(1, 0)] == 5 && three[RING_STEPS(1, 1)] == 4294967295u && three[RING_STEPS(1, 2)] == 0x05060708);
    expect("the image", ring_image_write(three, RING_TABLE_WORDS(1, 3), image, sizeof image), RING_OK, 1, sizeof bytes, 0, 0, 0);
    expect_true("byte for byte", memcmp(image, bytes, sizeof bytes) == 0);
    expect("read", ring_image_read(other, words, bytes, sizeof bytes), RING_OK, 1, 3, 0, 0, 0);
    expect_true("word for word", memcmp(other, three, sizeof three) == 0);
    expect("field of 20", ring_image_field(bytes, sizeof bytes, 34), RING_OK, 4, RING_TAG_MEMBER, 37, 21, 58);
}

/* Document 01: refusals. */
static void refusals(void)
{
    expect("no table", ring_audit(table, RING_HEADER_WORDS - 1), RING_NOT_WELL_FORMED, 0, 0, 0, 0, 0);
    expect("no member", ring_stabilize(table, words, 11), RING_NO_MEMBER, 0, 0, 0, 0, 0);
    expect("not between", ring_join(table, words, 50, 20), RING_NOT_BETWEEN, 0, 0, 0, 0, 0);
    expect("two are too few", ring_new(other, words, 2, ids, 2), RING_NO_NEW_TABLE, 0, 0, 0, 0, 0);
    expect("too short", ring_new(other, RING_TABLE_WORDS(2, 4) - 1, 2, ids, 4), RING_TOO_SHORT, 0, 0, 0, 0, 0);
}

int main(void)
{
    session();
    settling_churn();
    saved();
    lost();
    take_over();
    not_sound();
    layout();
    refusals();

    /* Document 02, in its order. */
    held_keys(table);
    principal_test();
    join_declined(table);
    withdrawals();
    settling(table);
    passed_over(table);
    counted_by_shelf(table);
    finer_alike(table);
    service_hours(table);
    return closing_line("firmware");
}
