/* The ring table of networked archive shelves: the calls for C.

   A ring table has a record for each shelf of a ring, its member, with a list of the shelves that come after it. The lists
   are kept by Zave's corrected Chord steps, so that the ring does not split, as long as each loss is one that it bears (see
   ONE RING). This page is the manual: what the words mean, how to do what one does, then the calls. What it says of answers
   and buffers is proved of the code, but for the few sentences that docs/CLAIMS.md says are tested; it names the proof of
   each of the others, and which are measured or owed by the caller.


   THE TABLE

   A slice of 32-bit words that the caller lends, as a pointer and a count of words. Word 0 comes first:

         0                r               entries in each list: 1 to 8
         1                member count    0 to 256
         2                zero            0 always
         3                record of the member with the lowest identifier
         3 + 1 (r + 5)    record of the next one up
         3 + 2 (r + 5)    ..
                          after the last record: words that belong to nobody

   A record has r + 5 words:

       + 0                identifier
       + 1                predecessor: an identifier, of a member or not
       + 2                pending: 1 if the next stabilize step is to look at the candidate, else 0
       + 3                candidate: an identifier; 0 where pending is 0
       + 4 .. r + 3       the list: r entries, each an identifier, of a member or not
       + r + 4            step count: the member's own accepted stabilize steps; it stays at 4294967295

   RING_TABLE_WORDS(r, members) says how many words a table takes; RING_TABLE_WORDS_MOST hold every table. A join takes the
   next r + 5 of the words after the last record, a loss or a withdrawal makes the r + 5 that it frees 0: keep nothing there.
   Read words as you like, by the names below; write them by the calls alone.


   THE IMAGE

   The writing of a table in bytes, to be stored or sent: fields, each a tag of one byte, the length of its contents in two,
   and the contents. Numbers stand high byte first, so the bytes do not depend on the host's byte order (a table's words do).

       tag 1, length 7          r in one byte, member count in two, 0 in four
       tag 2, length 17 + 4 r   for each member, in order: identifier in four bytes, predecessor in four, pending in one,
                                candidate in four, then the r entries of its list in four each, then step count in four
       tag 3, length 0          the end; no byte follows

   RING_IMAGE_BYTES(r, members) says how many bytes that is; RING_IMAGE_BYTES_MOST hold every image.


   WHAT THE WORDS MEAN

   identifier     any 32-bit number; the one after 4294967295 is 0
   between        between(a, n, b): n lies strictly inside the way up from a to b, round the end if need be. If a < b, that
                  is a < n and n < b; else a < n or n < b. So between(a, n, a) holds for each n other than a
   well-formed    header and records stand as above: r is 1 to 8, there are 0 to 256 members, the header's third word is 0,
                  records stand by strictly rising identifier, each pending is 0 or 1, and each candidate is 0 where
                  pending is 0. Predecessors, entries and step counts may be any numbers
   step count     a member's own: 0 when it joins and by ring_new, the image's by ring_image_read; each of its accepted
                  stabilize steps adds 1, those of rounds and settles too, until it is 4294967295
   live, dead     an entry is live if it is a member's identifier, else dead. A dead entry need not be a shelf that has
                  gone: a stabilize step that drops a dead first entry appends the identifier after the last entry, and
                  that may never have been a shelf's
   extended list  a member's identifier, and then its list; it is in ring order if between(a, b, c) holds for every three of
                  its identifiers a, b, c that stand in this order
   principal      a member that no list skips: no two neighbours (a, b) of any member's extended list have
                  between(a, member, b)
   move           from a member to the first live entry of its list
   ring           the members that come back to themselves by one or more moves. On a table that is not sound these may be
                  several rings, or none
   sound          a well-formed table in which each list has a live entry, there are at least r + 1 principals, and each
                  pending candidate c of a member n has between(n, c, first entry of n)
   ideal          each list is the next r members up, in order, and each predecessor is the next member down, both round
                  the end. A step may be pending all the same
   verdict        0 not sound, 1 sound, 2 sound and ideal: ring_audit tells it
   minute         of the week: 0 to 10079, and after 10079 comes 0. Which time is minute 0, the caller decides
   window         a start and an end, two different minutes of the week. It holds the start, the minutes after it, and not
                  the end; where the end is below the start it runs over the week's end
   open           a minute of the week that a window holds, else it is closed. A minute that is counted on from a week's
                  start, over any number of weeks, is open where its remainder by 10080 is


   ONE RING

   The promise is about sequences of these calls, in any order and with any identifiers, refused ones included: ring_join,
   ring_leave, ring_fail, ring_stabilize, ring_rectify, ring_round, ring_settle, ring_settle_at, ring_lookup and ring_audit.
   The other calls that leave the table alone (those that take it as const, or take none) may stand anywhere among them. From
   a sound table every such sequence leads to a sound table, as long as
     - each accepted ring_fail is one that ring_leave would have granted in its place, and
     - nobody else writes the table.

   On a sound table the moves of its members form exactly one ring, in the order of their identifiers, once round. It holds
   every principal, so at least r + 1 members. Every other member comes onto it in at most as many moves as there are members
   outside it. Each list names r different identifiers, none its owner's, and each extended list is in ring order.

   An accepted ring_fail that ring_leave would not have granted is seen by an audit right after it: the verdict is 0. ring_new
   starts with verdict 2. ring_image_read promises nothing of the ring: the image of a table with two rings is an image, and
   is read. Audit after reading.


   HOW TO

   Start. ring_new with the identifiers of the shelves; or ring_image_read, and then ring_audit: go on if the verdict is 1
   or 2. Lend room for the shelves to come, r + 5 words each. Choose r of 2 or more: any r - 1 shelves may be taken out of a
   settled ring that keeps r + 1. r stays as it was chosen, and is the table's first word, table[RING_R].

   Let a shelf join. By which member p: look j up with ring_lookup from any member; p is values[1], the member that the
   lookup stood at. If j is no member and the lookup replied, ring_join of j by p is accepted, unless the first entry of p is
   dead (then it is declined by 4 or 13, with room or without) or there is no room (5). With verdict 2 nothing but 5 declines
   it. After 4 or 13 let p take its turn, as below, look j up again and join by the member that it stands at now: p may have
   taken up a member between itself and j. Bound the tries, by the member count say. Or settle first. Settling to verdict 2
   brings the new member onto the ring, if it is not on it before.

   Keep the ring in order. Each member n takes its turn now and then: if a step is pending, as its record tells, one
   ring_stabilize of n finishes it; then ring_stabilize of n until it replies RING_DONE. Each RING_DONE names an identifier h,
   which gets a notice from n: ring_rectify(table, words, h, n), refused where h is no member. The promise holds whether a
   notice comes late, twice or never; but it is by notices that new members are taken up. Bound the loop: on a sound table
   r + 2 steps are enough for a turn, one for a pending step and then r + 1. ring_round is the turn of every member, and
   ring_settle runs rounds until the verdict is 2 or its limit is reached. With a limit of 255 or more it always reports
   verdict 2, if it is not refused.

   Keep service hours, where rounds are in the way of other work: windows say when they may run. With minute 0 at Monday 0:00,
   the nights of the working days, 22:00 to 6:00, and all from Saturday 20:00 to Monday 6:00, over the week's end, are
      const uint32_t hours[12] = {1320, 1800, 2760, 3240, 4200, 4680, 5640, 6120, 7080, 7560, 8400, 360};
   ring_is_open(hours, 12, m) says 1 for m = 1320, 1799, 10079, 0 and 359, and 0 for 1319, 1800 and 360; ring_next_open says
   1320 for 360, 1799 for 1799 and 8400 for 7560. With no window nothing is open; with {0, 1, 1, 0} every minute is.
   ring_settle_at takes the minutes at which a round may run, counted on in later weeks: of {1290, 1320, 1350, 11400} it runs
   none at the first, which is closed, and one at each of the others, the last a week after the second, until the verdict is
   2. Or call it each minute, with a list of that one: rounds add up, as ring_settle's do. Where it reports verdict 1, the open
   minutes were too few. Go on with later ones: where there is a window, the next open minute after t is t + 1 +
   (n + RING_WEEK - m) % RING_WEEK, where m is (t + 1) % RING_WEEK and n what ring_next_open says for m.

   Find a shelf that does not stabilize. Two readings of its step count, table[RING_STEPS(r, place)], tell whether it has
   taken a stabilize step in between: if they are equal, none; else as many as they differ by, or more where the second is
   4294967295. That holds if the first is below 4294967295, the shelf stayed a member, and the table was neither made anew by
   ring_new nor read by ring_image_read in between; a shelf that left and joined again starts at 0. Records move as other
   shelves join and go: at each reading look for the place by the identifier.

   Take a shelf out. ring_leave; 6 and 7 decline it where the ring would not bear it. With verdict 2 any r - 1 shelves,
   neighbours or not, are granted it one after the other, as long as r + 1 are left; with r + 1 members or fewer it is always
   refused. With verdict 1 settle and try again. Where it is refused with verdict 2 too, start anew without the shelf, as
   below.

   Report a loss. The shelf is gone, whatever the table says: ring_leave first, and ring_fail where that is refused by 6 or
   7. Where ring_leave is granted, ring_fail would have answered the same and left the same words; from a sound table the
   table is sound then. Where it is refused by 6 or 7, the verdict after ring_fail is 0. With little stack: ring_fail, and
   then ring_audit. From a sound table the verdict is 0 exactly where ring_leave would have been refused by 6 or 7.

   On verdict 0 there is no promise. ring_round, ring_settle and ring_settle_at are refused (14). ring_findings tells which
   members never come onto a ring: their moves are the member count. A ring_lookup that is refused by 8 names a member whose
   list is all dead. Let each shelf take its turn, a few times, each bounded by r + 2 steps, and audit again: if the verdict
   comes back to 1 or 2, the promise holds from there on. Nothing says that it comes back. With fewer than r + 1 members turns
   alone never bring it back; and a member whose list is all dead tries the identifiers after its last entry one by one, so
   that the next member may be far. If it does not come back, start anew.

   Start anew. Copy the identifiers of the shelves that stay into a slice of their own, for slices may not overlap, and call
   ring_new with it; where they are fewer than r + 1, with a smaller r. ring_new takes two shelves at least.

   Save and restore. ring_image_write, which says how many bytes it wrote; ring_image_read with exactly so many, no more and
   no fewer, into a slice of RING_TABLE_WORDS(r, members) words or more (RING_TABLE_WORDS_MOST, where r and members are not
   known, and for joins to come); then ring_audit. A call that a reset cuts off can leave the table half written, and a
   half-written table may well be a well-formed one: after a reset do not go on with the words, but read the last image and
   audit it. An image has no checksum: where the place it is kept may lose bytes, add one.

   Check a copy, after a controller swap for one. Lend the old controller's table and the new one's to ring_alike, as whole
   slices, of equal length, as later calls get them; an image is read into such a slice first. 1: the ten calls that ONE RING
   names, the same ones made on both from now on, answer the same on both. Step counts may differ, which words and images
   show: take both readings of a shelf's from the same table. 0: r, the members, or some member's predecessor, pending,
   candidate or list differ; the words, by the names below, show where. A call that one of the two has had since the copy may
   be the cause.


   CALLING

   Slices. A call reads and writes nothing outside the slices it is lent, returns for every input, and never keeps a pointer.
   What the caller owes: no pointer is null, also where a count is 0; all but those to an image are aligned for uint32_t;
   each slice has as many elements as its count says; slices of one call do not overlap where one of them is written; nobody
   else writes a slice during a call.

   Answers. number is RING_OK, and then the first count of the values are the reply and the others are 0; or number is that
   of a refusal, and then every buffer is as it was, and values and count are 0. The exception is 8: its count is 1 and
   values[0] a member. ring_held has a struct of its own: number is RING_OK, and as many elements of start and of end as runs
   says are the reply, the others 0; or number is that of a refusal, and the rest is 0. Look at number before the values.

   Each call names its refusals in the order in which they are tried: the first that applies is given. That is the lowest
   number, but ring_new tries 11 before 10, ring_join 13 before 5, and ring_settle_at 15 and 16 before 14.

   Threads and interrupts. The calls are reentrant and have no memory of their own, static or from a heap. Different tables
   may be worked on at the same time from different threads; one table by one writer, or by any number of readers.

   Stack. How many bytes of stack each call took where it went deepest, its return address included, rounded up: measured on
   painted stacks, with small and full tables, accepted and refused by each number (tests/c/stack.c). Keep some more free, and
   link statically or with -z now: else the first call that comes to memcpy or memset runs the dynamic linker on this stack,
   which took some 3,200 bytes more.

      ring_new           128        ring_lookup        192
      ring_join          256        ring_held          128
      ring_stabilize     320        ring_principal     128
      ring_rectify       256        ring_audit        2816
      ring_round        1216        ring_findings     3840
      ring_settle       1280        ring_alike         128
      ring_is_open       128        ring_take_over      64
      ring_next_open      64        ring_image_write   128
      ring_settle_at    1536        ring_image_read    192
      ring_fail          128        ring_image_field    64
      ring_leave       14592

   Time. No call's work grows faster than members * r * log(members), but for ring_held, which goes through its keys too,
   ring_round, with members * r * (r + log(members)), ring_settle, with at most members - 1 rounds, and ring_settle_at, which
   is as ring_settle and goes through its minutes too, for each of them through the windows. docs/PERFORMANCE.md has times.

   The archive is built for x86-64 Linux (System V calling convention), and needs memcpy and memset of the C library, and
   nothing else. */

#ifndef RING_H
#define RING_H

#include <stddef.h>
#include <stdint.h>

#ifdef __cplusplus
extern "C" {
#endif

/* The layout of tables and images on this page. A release that moves words of tables or bytes of images raises the number;
   it declines older tables by RING_NOT_WELL_FORMED and older images by RING_NO_IMAGE where that can be told, and says here
   where it cannot. Neither a table nor an image holds the number: who keeps them over an update keeps it beside them, and
   compares.
   Layout 1 had one step count for the whole ring, where header and tag 1 have 0 now, and none in records and tag 2.
   - Its images: ring_image_read declines one with a member, or with a step count other than 0. One without members and with
     step count 0 is read; its bytes are the same in both layouts.
   - Its tables: one with a step count other than 0 is declined. One with step count 0 is well-formed here, so that it cannot
     be told, if it has no member, for it is the same table then, or one and a word behind it; with two members it may be, with
     three or more it never is. 1 1 0 5 5 0 0 5 77 had the member 5 and a word that belonged to nobody, and here 77 is the step
     count of 5; 1 2 0 5 9 0 0 9 9 7 0 0 0 3 4 had the members 5 and 9, and here they are 5 and 7.
   So a firmware keeps RING_LAYOUT beside its tables. To go on with a ring of layout 1, start anew, as HOW TO says, with the
   identifiers of its table, the words 3 + place (r + 4), or of its image, the four bytes from 13 + place (16 + 4 r) on, high
   byte first. */
#define RING_LAYOUT 2

/* The most members, the most entries in a list, the most windows, of two words each; and the minutes of a week. */
#define RING_MEMBERS_MOST 256
#define RING_R_MOST 8
#define RING_WINDOWS_MOST 16
#define RING_WEEK 10080

/* The words of the header, by name: table[RING_R]. */
enum {
    RING_R = 0,
    RING_MEMBERS = 1,
    RING_ZERO = 2,
    RING_HEADER_WORDS = 3
};

/* The words of a record, by name, counted from its first: table[RING_RECORD(r, place) + RING_PENDING]. The entries of the
   list are the r words from RING_LIST on; the step count follows them, see RING_STEPS. */
enum {
    RING_ID = 0,
    RING_PREDECESSOR = 1,
    RING_PENDING = 2,
    RING_CANDIDATE = 3,
    RING_LIST = 4
};

/* How many words a record has, and the word at which the record at a place begins. The member with the lowest identifier
   stands at place 0. */
#define RING_RECORD_WORDS(r) (RING_LIST + (size_t)(r) + 1)
#define RING_RECORD(r, place) (RING_HEADER_WORDS + (size_t)(place) * RING_RECORD_WORDS(r))

/* The word that is the step count of the member at a place, the last of its record: table[RING_STEPS(r, place)]. */
#define RING_STEPS(r, place) (RING_RECORD(r, place) + RING_LIST + (size_t)(r))

/* How many words a table takes, and how many hold every table. */
#define RING_TABLE_WORDS(r, members) RING_RECORD(r, members)
#define RING_TABLE_WORDS_MOST 3331

/* How many bytes an image takes, and how many hold every image. */
#define RING_IMAGE_BYTES(r, members) (13 + (size_t)(members) * (20 + 4 * (size_t)(r)))
#define RING_IMAGE_BYTES_MOST 13325

/* The tags of an image's fields. */
enum {
    RING_TAG_TABLE = 1,
    RING_TAG_MEMBER = 2,
    RING_TAG_END = 3
};

/* What number says: RING_OK, or the refusal, by its cause. */
enum {
    RING_OK = 0,
    RING_NOT_WELL_FORMED = 1,    /* a table is not well-formed, or longer than its slice */
    RING_ALREADY_MEMBER = 2,     /* join: j is a member */
    RING_NO_MEMBER = 3,          /* p, or the member called, is no member */
    RING_NOT_BETWEEN = 4,        /* join: not between(p, j, first entry of p) */
    RING_NO_ROOM = 5,            /* join: 256 members, or fewer than r + 5 words after the last record */
    RING_CUTS_OFF = 6,           /* withdrawal: a member left would have no live entry */
    RING_TOO_FEW_PRINCIPALS = 7, /* withdrawal: fewer than r + 1 principals would be left */
    RING_NO_LIVE_ENTRY = 8,      /* lookup: it stands at a member without a live entry; values[0] is that member */
    RING_NO_IMAGE = 9,           /* the bytes are not the writing of a well-formed table; or no field stands at the position */
    RING_TOO_SHORT = 10,         /* the slice that is to be written is too short */
    RING_NO_NEW_TABLE = 11,      /* new: r not 1 to 8, identifiers not strictly rising, fewer than r + 1, more than 256 */
    RING_KEYS_NOT_RISING = 12,   /* held: the keys are not strictly rising */
    RING_DEAD_FIRST_ENTRY = 13,  /* join: the first entry of p is no member */
    RING_NOT_SOUND = 14,         /* round, settle, settle at: the table is not sound */
    RING_BAD_WINDOWS = 15,       /* over 16 windows, an odd number of words, equal ends, or a minute of the week over 10079 */
    RING_BAD_MINUTES = 16        /* settle at: the minutes are not strictly rising, or one is 4294967295 */
};

/* The verdicts on a table. */
enum {
    RING_VERDICT_NOT_SOUND = 0,
    RING_VERDICT_SOUND = 1,
    RING_VERDICT_IDEAL = 2 /* sound, and ideal */
};

/* What a stabilize step replies first. */
enum {
    RING_AGAIN = 0, /* a dead first entry was dropped: the member is to step once more */
    RING_LOOK = 1,  /* values[1] is its candidate now, to be looked at by its next step */
    RING_DONE = 2   /* values[1] is to be notified, by ring_rectify */
};

/* What a call answers: its number, and as many values as count says. */
struct ring_answer {
    uint32_t number;
    uint32_t values[4];
    uint32_t count;
};

/* What the audit finds of one member: whether it is a principal (1 or 0), and the moves from it to a ring: 0 on one, the
   member count where the walk never comes to one. */
struct ring_finding {
    uint32_t id;
    uint32_t principal;
    uint32_t moves;
};

/* What ring_held answers: its number, and as many runs of positions in the list of keys as runs says. A run goes from the
   position start to the one before end, and is empty where the two are equal. Positions count from 0. */
struct ring_runs {
    uint32_t number;
    uint32_t runs;
    size_t start[2];
    size_t end[2];
};

/* The new, ideal table of r and count strictly rising identifiers, each step count 0. The old words are never looked at;
   words after the last record stay. values: member count. Refused: 11, 10. */
struct ring_answer ring_new(uint32_t *table, size_t words, uint32_t r, const uint32_t *ids, size_t count);

/* j becomes a member by p: predecessor p, p's list, nothing pending, step count 0, also if it has left and joins again. The
   records above j move up, and no other record changes. values: member count afterwards. Refused: 1, 2, 3, 4, 13, 5.
   Where 13 declines it, the first entry of p is a member after at most r stabilize steps of p in a row, on a sound table, so
   after its turn. Then look j up again, since 4 can decline the same join now. By 13 the first entry of a new member is
   always a member when it joins, and none of its stabilize steps replies RING_AGAIN while no member goes. */
struct ring_answer ring_join(uint32_t *table, size_t words, uint32_t j, uint32_t p);

/* One stabilize step of n, which adds 1 to n's step count (it stays at 4294967295). values, with h the first entry of n:
   {RING_AGAIN}    nothing was pending and h is dead: h was dropped from the list's front, and the identifier after the last
                   entry (with r = 1 after h) put at its end;
   {RING_LOOK, c}  nothing was pending and h is a member: the list became h and h's list without its last entry. c is the
                   predecessor of h and has between(n, c, h): it is the candidate of a pending step now;
   {RING_DONE, h}  nothing was pending and h is a member: the list became the same; the predecessor of h is no such c, and
                   nothing is pending;
   {RING_DONE, x}  a step was pending: if its candidate is a member, the list became that one and its list without its last
                   entry. Nothing is pending any more, and x is the first entry now, a member or not.
   Refused: 1, 3.
   On a sound table the steps of one member up to its first done, with no other call between them, say again at most r - 1
   times, then look at most once, then done: r + 1 steps are enough; if a step is pending, the first says done. On a table
   that is not sound nothing bounds the agains but the identifiers: a lone member with r = 1 can say again 4294967295 times in
   a row. So bound the loop.
   While a shelf stays a member, its step count changes by its own accepted stabilize steps, those of ring_round, ring_settle
   and ring_settle_at among them, by ring_new and by ring_image_read, and by nothing else: not by steps of others, not by their
   joins, losses and withdrawals, though these may move its record, not by ring_rectify, and not by a refused call. */
struct ring_answer ring_stabilize(uint32_t *table, size_t words, uint32_t n);

/* n takes a notice that q sent, any identifier: q becomes n's predecessor if between(predecessor, q, n), or if the
   predecessor is no member. values: {1} if q was written, {0} if not. Refused: 1, 3. */
struct ring_answer ring_rectify(uint32_t *table, size_t words, uint32_t n, uint32_t q);

/* One round: each member, by rising identifier, finishes a pending step, if it has one, and delivers its notice; then it
   takes stabilize steps until done, and delivers that notice. A notice is taken as by ring_rectify; one to a non-member is
   lost. These are 1 to r + 2 steps a member, and its step count grows by so many, up to 4294967295. values: the verdict after
   the round, 1 or 2. Refused: 1, 14. */
struct ring_answer ring_round(uint32_t *table, size_t words);

/* Settle: rounds until the verdict is 2, or until so many have run as limit says; any limit, 0 runs none. The verdict is
   looked at before each round, so an ideal table gets none, and a step that is pending there stays so. values: rounds run,
   verdict, passed. Refused: 1, 14.
   Each round adds to the step counts as ring_round does: k rounds at least k and at most (r + 2) k to each member's, up to
   4294967295.
   passed is of the table as it began, whether or not a round was run: the dead entries before the first live one of each
   list, added up over all members, at most r - 1 a member. It tells how stale the lists were: 0 if each member's first entry
   was a member, as on an ideal table.
   Enough are members - principals + r rounds, by ring_audit's numbers before the call: so many, or any more, make every
   sound table ideal, and that is at most members - 1. So with a limit of 255 or more the verdict reported is 2. The rounds of
   several calls add up, single rounds among them, as long as no other call that writes the table stands between them. A
   round after that many changes step counts only. */
struct ring_answer ring_settle(uint32_t *table, size_t words, uint32_t limit);

/* Is this minute of the week open? The windows are words, start and end by turns: 0 to 16 windows, overlapping or not. values:
   {1} yes, {0} no. Nothing is written. Refused: 15. */
struct ring_answer ring_is_open(const uint32_t *windows, size_t words, uint32_t minute);

/* The first open minute of the week at or after this one, going round: it is open, and none from this one up to it is.
   values: {1, that minute}, or {0} for none, exactly where there is no window. Nothing is written. Refused: 15. */
struct ring_answer ring_next_open(const uint32_t *windows, size_t words, uint32_t minute);

/* Settle with windows: in the order of the list one round at each open minute, none at a closed one; it stops early exactly
   where the verdict before a round is 2, and has no other limit. The minutes are counted from a week's start: strictly rising,
   each below 4294967295; one minute or none is a list too. values: rounds run, verdict, passed, as ring_settle. Refused: 1, 15
   (by the windows alone), 16, 14; 15 and 16 are judged on the whole lists, even where no round would be run.
   It leaves what single rounds at the open minutes of the list leave, up to the first at which the verdict is 2; it answers
   and leaves what ring_settle does with the number of open minutes as its limit. So with members - principals + r open
   minutes or more it reports verdict 2, with none it runs no round, and its rounds add up with others as ring_settle's do. */
struct ring_answer ring_settle_at(uint32_t *table, size_t words, const uint32_t *windows, size_t window_words,
                                  const uint32_t *minutes, size_t count);

/* Loss of n: its record goes, those above move down, the r + 5 words freed become 0. values: member count afterwards.
   Refused: 1, 3. */
struct ring_answer ring_fail(uint32_t *table, size_t words, uint32_t n);

/* Withdrawal of n: as its loss, but refused by 6 or 7, both judged on the table as it would be afterwards. values: member
   count afterwards. Refused: 1, 3, 6, 7.
   From a table with verdict 2, k withdrawals of different members, one after the other, in any order and with nothing else
   written between them, are all granted, if k is at most r - 1 and at most members - r - 1. */
struct ring_answer ring_leave(uint32_t *table, size_t words, uint32_t n);

/* Find key k from the member n: at q, with b its first live entry, b is the owner if k is b or between(q, k, b); else it
   moves on to b. values: owner, the member it was found at, moves made (always fewer than the members), passed. Nothing is
   written. Refused: 1, 3, 8; on a sound table never by 8.
   passed tells how stale the lists were on the way: the dead entries before the first live one in the list of each member
   stood at, the one it was found at too, added up; at most r - 1 a member. 0: each of them went by its first entry, always
   so with verdict 2. Above 0: lists on the way begin with identifiers that are no members, and their members are to
   stabilize. Entries behind the first live one are not looked at and not counted. 8 says nothing of what was passed. */
struct ring_answer ring_lookup(const uint32_t *table, size_t words, uint32_t n, uint32_t k);

/* The keys that the member n holds, of count strictly rising keys; no key and one key count as rising. A key is held by the
   first member at or above it, a key above the last member by the lowest. runs: one, from the number of keys at or below the
   next lower member to the number at or below n; or two for the lowest member, also where it is the only one: from the
   number at or below the last member to count, then from 0 to the number at or below n. If there is a member, each key is in
   exactly one member's runs. With verdict 2 ring_lookup gives that member as the key's owner from every member; with verdict
   1 it may give another, while the lists have not taken up a new member. Nothing is written. Refused: 1, 3, 12. */
struct ring_runs ring_held(const uint32_t *table, size_t words, uint32_t n, const uint32_t *keys, size_t count);

/* Is the member n a principal? The test takes the pairs of neighbours (a, b) in the members' extended lists, record by
   record, each list from its front, and ends at the first with between(a, n, b), which skips n. values: {0, pairs} no: so
   many pairs were taken, that one included; {1, members * r} yes: no pair skips n. As many members have a yes as ring_audit
   counts principals. Nothing is written. Refused: 1, 3. */
struct ring_answer ring_principal(const uint32_t *table, size_t words, uint32_t n);

/* values: members, principals, ring members, verdict. Where there are several rings, the members of all of them are counted:
   that there is one ring is what verdict 1 and 2 say. Nothing is written. Refused: 1. */
struct ring_answer ring_audit(const uint32_t *table, size_t words);

/* The audit, and one finding a member, in order; findings past the members stay. values: as ring_audit. Refused: 1, 10. */
struct ring_answer ring_findings(const uint32_t *table, size_t words, struct ring_finding *findings, size_t count);

/* Are two tables equal in r, in the members' identifiers, and in each member's predecessor, pending, candidate and whole
   list? Step counts are not compared, nor words after the last record. values: 1 yes, 0 no. Nothing is written. Refused: 1,
   for either.
   Yes, of slices of equal length, lent so to every later call: every sequence of the ten calls that ONE RING names, made on
   both tables, sound or not, with nothing else written between, gets the same answers on both, one by one, and ring_alike
   says yes again after it. So after each such sequence ring_findings (answer and findings), ring_held and ring_principal
   answer the same on both, and ring_image_write writes the same number of bytes, which differ at most in step counts. The
   lengths are to be equal because 5 depends on them: a join may be refused for want of words in one slice and accepted in a
   longer one.
   No: the tables differ in one of these. There need not be a sequence that tells them apart: on sound tables a member may
   have one or another dead candidate pending, if nobody can join as either before its next step forgets it. */
struct ring_answer ring_alike(const uint32_t *a, size_t a_words, const uint32_t *b, size_t b_words);

/* The take-over choice of a shelf that makes a stabilize step by messages, without a table: own is its identifier, h its
   first entry, c the predecessor of h. It holds two replies: the list of h, and that of c (empty if c timed out; where h
   timed out there is nothing to choose, and h is to be dropped as by {RING_AGAIN} above). c's list is taken if it is not
   empty and between(own, c, h), else h's. values: {1, length, high} c's list, {0, length, high} h's; length is that of the
   part to take over, from the list's first entry on, without its last entry, and high its high word, 0 for every list below
   2^32 entries. The new list is then c or h, and that part. An empty list gives an empty part. Nothing is written. Never
   refused. */
struct ring_answer ring_take_over(uint32_t own, uint32_t h, uint32_t c, const uint32_t *h_list, size_t h_count,
                                  const uint32_t *c_list, size_t c_count);

/* Writes the image of the table. values: bytes written; later bytes stay. Refused: 1, 10. */
struct ring_answer ring_image_write(const uint32_t *table, size_t words, uint8_t *image, size_t bytes);

/* Reads a whole image into a slice, whose old words are never looked at; words after the last record stay. bytes is exactly
   the image's length: with more or fewer it is no image. values: member count. Refused: 9, 10. */
struct ring_answer ring_image_read(uint32_t *table, size_t words, const uint8_t *image, size_t bytes);

/* The field at a position. values: tag, start of its contents, their length, position after them. Nothing is written.
   Refused: 9. Where fields are due follows from r and member count of the first field, whatever these two say: tag 1 at 0,
   tag 2 at 10 + i (20 + 4 r) for each member, then tag 3. A field is answered if the first one has its tag and length, the
   one asked for has those that are due there, and both lie within the bytes. Its numbers, other fields and bytes behind it
   are not looked at: a walk from 0 that comes to the end has not shown that the bytes are an image; ring_image_read does. */
struct ring_answer ring_image_field(const uint8_t *image, size_t bytes, size_t position);

#ifdef __cplusplus
}
#endif

#endif
