/* dpr.h: log images, message numbers, one site's step, the drill and the bill of the handover engine, for C and C++
 * firmware.
 *
 * Link libcodec.a for dpr_image_check, dpr_image_copy and dpr_message_parts, libsite.a for dpr_site_step, and
 * libdrill_text.a for dpr_drill and dpr_bill; none needs another. `bin/staticlib codec`, `bin/staticlib site` and
 * `bin/staticlib drill_text` write them to target/staticlib.
 * They are compiled for x86-64, and need nothing of the C library but, at most, memcpy, memmove, memset, memcmp and bcmp.
 *
 * dpr_image_copy and dpr_message_parts return a number: DPR_ACCEPTED, or the number of a refusal. A refusal leaves the
 * caller's memory as it was. dpr_image_check returns two bytes in one number, dpr_bill four, dpr_site_step eight; the
 * lowest of them is such an answer. dpr_drill returns the length of its text, whose lines hold such answers.
 * Every value of every number, length and byte is answered; there is no error beside these numbers.
 * No call allocates, keeps state from one call to the next, waits or blocks. Calls may run at the same time, also from an
 * interrupt, as long as no memory that one of them writes is in use by another.
 *
 * The caller sees to this, and no call can check it:
 * - each pointer is valid for the length given with it: `image` to read `image_len` bytes, `buffer` to read and write
 *   `buffer_len` bytes, `parts` to read and write three bytes, `events` to read `len` bytes, `text` to read and write
 *   `text_len` bytes; no alignment is needed;
 * - no pointer is null. For a length of 0 any other pointer will do, since nothing is read or written through it;
 * - `image` and `buffer` do not overlap in any byte, whatever the offset; nor do `events` and `text`;
 * - calls follow System V's convention for x86-64: the stack is aligned to 16 bytes at the call, and the direction flag is
 *   clear. The functions may use SSE registers, and the 128 bytes below the stack pointer. So the handler of an interrupt
 *   leaves these 128 bytes as they are, and where it makes a call of its own it saves the SSE state with the other
 *   registers and aligns the stack first.
 */
#ifndef DPR_H
#define DPR_H

#include <stddef.h>
#include <stdint.h>

#ifdef __cplusplus
extern "C" {
#endif

#define DPR_ACCEPTED 0

/* Refusals of dpr_image_check and dpr_image_copy. An image with several faults gets the number that comes first in this
 * order: 20, 21, 22; then record by record, each with 23, 27, 28, 24; then, in dpr_image_copy alone, 25. */
#define DPR_REFUSED_OPENING 20  /* under 6 bytes, or the first four are not 44 50 52 4C (hexadecimal) */
#define DPR_REFUSED_SITE 21     /* site above 8, or more records than that site can have */
#define DPR_REFUSED_TABLE 22    /* pair table short, with a wrong offset, or not ending at the end of the image */
#define DPR_REFUSED_RECORD 23   /* a record's kind is not one of that site's, or its length is not its kind's */
#define DPR_REFUSED_HANDOVER 27 /* a record's handover is above 7 */
#define DPR_REFUSED_FIELD 28    /* a record's members are 0, its presume_commit is no part of them or, in a record
                                 * DPR_RECORD_INIT, 0, or its presumption is above 1 */
#define DPR_REFUSED_SEQUENCE 24 /* a record cannot follow the earlier ones of its handover */
#define DPR_REFUSED_BUFFER 25   /* the buffer is too short for the image at that offset */

/* Refusal of dpr_message_parts. */
#define DPR_REFUSED_MESSAGE 26 /* number above 511 */

/* Sizes. There are 8 handovers; of each a hub holds at most 3 records (10 bytes), a box at most 2 (5 bytes). An image is
 * 6 bytes, 4 bytes for each record, and the records. No longer image is accepted, so a buffer of DPR_IMAGE_MAX bytes
 * holds every accepted image at offset 0. */
#define DPR_HUB_RECORDS_MAX 24
#define DPR_BOX_RECORDS_MAX 16
#define DPR_IMAGE_MIN 6       /* a log without records */
#define DPR_HUB_IMAGE_MAX 182 /* 6 + 24 * 4 + 8 * 10 */
#define DPR_BOX_IMAGE_MAX 110 /* 6 + 16 * 4 + 8 * 5 */
#define DPR_IMAGE_MAX DPR_HUB_IMAGE_MAX

/* Message numbers are 0 to DPR_MESSAGES - 1. */
#define DPR_MESSAGES 512

/* The two bytes of the number that dpr_image_check returns. */
#define DPR_CHECK_ANSWER(check) ((uint8_t)(check))       /* DPR_ACCEPTED or the number of a refusal */
#define DPR_CHECK_INDEX(check) ((uint8_t)((check) >> 8)) /* the first bad record, or how many there are */

/* Reads the log image in the `image_len` bytes at `image`, and tells which record is broken, and how.
 *
 * DPR_ACCEPTED: the image is sound, and the index is how many records it has.
 * 20 to 22: refused before any record is looked at; the index is 0.
 * 23, 27, 28 or 24: the record with that index, counted from 0, is refused by that number; all records before it are
 * sound. On 24 it is the later one of the two that do not fit.
 * Look at the answer first: the index is 0 too where the first record is bad, and where there is none. */
uint16_t dpr_image_check(const uint8_t *image, size_t image_len);

/* Reads the log image in the `image_len` bytes at `image`, and writes its log as an image again from byte `offset` of
 * the `buffer_len` bytes at `buffer`.
 *
 * DPR_ACCEPTED: the image is sound. The bytes written are those of the image, `image_len` of them; the bytes of the
 * buffer before and after them are as they were.
 * 20 to 25, 27, 28: refused, and the whole buffer is as it was. A sound image gets only 25, and gets it exactly where
 * `buffer_len - offset` is under `image_len`; an offset beyond the end of the buffer, of any value, is one of these. */
uint8_t dpr_image_copy(const uint8_t *image, size_t image_len, uint8_t *buffer, size_t buffer_len, size_t offset);

/* Turns a message number back into its parts, without a division or a multiplication. The number is
 * 56 * handover + 7 * (box - 1) + kind for the kinds 0 to 6, and 448 + 8 * handover + (box - 1) for kind 7.
 *
 * DPR_ACCEPTED: parts[0] is the handover (0 to 7), parts[1] the box (1 to 8), parts[2] the kind (0 Prepare, 1 Yes, 2 No,
 * 3 Commit, 4 Abort, 5 CommitAck, 6 AbortAck, 7 read-only vote).
 * DPR_REFUSED_MESSAGE: the number is above 511, and the three bytes are as they were. */
uint8_t dpr_message_parts(uint16_t number, uint8_t parts[3]);

/* One site's step. Handovers are 0 to 7; site 0 is the hub, sites 1 to 8 are boxes. A set of boxes is a mask. */
#define DPR_HUB 0
#define DPR_BIT(box) ((uint8_t)(1u << ((box) - 1))) /* of a box, 1 to 8, in a mask */

/* Kinds: what a site gets, and what it sends. */
#define DPR_PREPARE 0    /* hub to box */
#define DPR_YES 1        /* box to hub */
#define DPR_NO 2         /* box to hub */
#define DPR_COMMIT 3     /* hub to box */
#define DPR_ABORT 4      /* hub to box */
#define DPR_COMMIT_ACK 5 /* box to hub */
#define DPR_ABORT_ACK 6  /* box to hub */
#define DPR_READ_ONLY 7  /* box to hub: the vote of a box that only looked */
#define DPR_BEGIN 16     /* no message: the hub begins */
#define DPR_TIMER 17     /* no message: the timer of the hub or of a box */

/* Phases of the hub, with the set that it waits for. */
#define DPR_HUB_OPEN 0       /* none */
#define DPR_HUB_COLLECTING 1 /* votes missing */
#define DPR_HUB_COMMITTING 2 /* acks missing */
#define DPR_HUB_ABORTING 3   /* acks missing */
#define DPR_HUB_UNKNOWN 4    /* none */

/* Phases of a box. */
#define DPR_BOX_WORKING 0
#define DPR_BOX_PREPARED 1
#define DPR_BOX_COMMITTED 2
#define DPR_BOX_ABORTED 3
#define DPR_BOX_UNKNOWN 4

/* What a box presumes where nothing is known of a handover. */
#define DPR_PRESUME_ABORT 0
#define DPR_PRESUME_COMMIT 1

/* Log records, 1 to 4 of the hub, 5 to 7 of a box. Their fields, a byte each, in this order: */
#define DPR_RECORD_INIT 1       /* 1, handover, members, presume_commit */
#define DPR_RECORD_COMMIT 2     /* 2, handover, members, presume_commit: of the boxes that remain */
#define DPR_RECORD_COMMIT_END 3 /* 3, handover */
#define DPR_RECORD_ABORT_END 4  /* 4, handover */
#define DPR_RECORD_PREPARED 5   /* 5, handover, presumption */
#define DPR_RECORD_COMMITTED 6  /* 6, handover */
#define DPR_RECORD_ABORTED 7    /* 7, handover */

#define DPR_OUTCOME_NONE 0
#define DPR_OUTCOME_COMMIT 1
#define DPR_OUTCOME_ABORT 2

/* What is in the eight bytes of the number that dpr_site_step returns. */
#define DPR_STEP_ANSWER(step) ((uint8_t)(step))                    /* DPR_ACCEPTED or DPR_REFUSED_ARGUMENT */
#define DPR_STEP_PHASE(step) ((uint8_t)((step) >> 8))              /* phase after */
#define DPR_STEP_WAITING(step) ((uint8_t)((step) >> 16))           /* waiting set after */
#define DPR_STEP_TAKEN_OUT(step) ((uint8_t)((step) >> 24))         /* set taken out after */
#define DPR_STEP_FIRST_RECORD(step) ((uint8_t)((step) >> 32 & 15)) /* kind of the record to append first, or 0 */
#define DPR_STEP_LAST_RECORD(step) ((uint8_t)((step) >> 36 & 15))  /* kind of the record to append last, or 0 */
#define DPR_STEP_FORCED(step) ((uint8_t)((step) >> 40 & 1))        /* 1: force the log */
#define DPR_STEP_OUTCOME(step) ((uint8_t)((step) >> 41 & 3))       /* outcome to enter, or DPR_OUTCOME_NONE */
#define DPR_STEP_MESSAGE(step) ((uint8_t)((step) >> 48))           /* kind of the message to send */
#define DPR_STEP_BOXES(step) ((uint8_t)((step) >> 56))             /* boxes whose message it is; 0: no message */

/* Refusal of dpr_site_step and dpr_bill. */
#define DPR_REFUSED_ARGUMENT 1

/* One step of one site on one handover. The caller keeps the phase; at the hub also the waiting set and the set taken
 * out, at a box also its mark. It passes them, acts on the number that comes back, and stores the phase and the two sets
 * that are in it.
 *
 * A handover. Before it is opened every site is Unknown for it. Opening it names members and presume_commit; the hub is
 * then DPR_HUB_OPEN and each member DPR_BOX_WORKING, with both sets empty and no mark. A handover's number is opened once
 * for ever, also where all of it was discarded: its old messages may still come, and would be taken for new ones.
 *
 * A box that only looked sets its mark to 1 while DPR_BOX_WORKING. No step changes the mark, and it means something in
 * that phase alone: on DPR_PREPARE the box sends DPR_READ_ONLY, writes nothing and is Unknown. A hub that collects votes
 * takes it out of the handover: only the boxes that remain have to vote Yes, are in DPR_RECORD_COMMIT and are told the
 * outcome. Where none remains, nothing is entered and the hub is Unknown. Such a box may still abort the handover:
 * - its timer runs out before DPR_PREPARE comes: it enters abort as any other, and then says DPR_NO;
 * - DPR_PREPARE comes twice: the second finds it Unknown and brings a DPR_NO. Where the hub gets this before the
 *   DPR_READ_ONLY, it aborts; behind it, the DPR_NO does nothing.
 *
 * Loss of power. Phase, sets and mark are kept in RAM, and no copy of them may survive: only the log does. While a site
 * is down, all its handovers are Unknown to it. Then the rules of restart below give each of them anew from the log. A
 * DPR_BOX_WORKING that survives books both ways: its timer has entered abort, power goes before Unknown is stored, and
 * still Working it votes Yes on a late Prepare and enters commit too.
 *
 * The presumption. DPR_YES, DPR_COMMIT and DPR_ABORT carry the box's presumption with them: a site that has forgotten the
 * handover takes it from the message and never guesses it. The other kinds carry none, and to a site in Unknown they mean
 * the same with either.
 *
 * Each argument has to be as follows, or the whole number is DPR_REFUSED_ARGUMENT, its other bytes 0:
 *   site            0 to 8.
 *   kind            at the hub DPR_YES, DPR_NO, DPR_COMMIT_ACK, DPR_ABORT_ACK, DPR_READ_ONLY, DPR_BEGIN or DPR_TIMER;
 *                   at a box DPR_PREPARE, DPR_COMMIT, DPR_ABORT or DPR_TIMER.
 *   handover        0 to 7.
 *   box             a member, 1 to 8: at the hub the message's sender, at a box the site itself, at its timer too.
 *                   At the hub with DPR_BEGIN and DPR_TIMER: 0.
 *   presumption     that of `box`, with every kind: DPR_PRESUME_COMMIT if it is in presume_commit, else
 *                   DPR_PRESUME_ABORT. Where box is 0: 0.
 *   phase           0 to 4, the hub's or the box's.
 *   waiting         at a box, in DPR_HUB_OPEN and in DPR_HUB_UNKNOWN: 0. Else not 0, and a part of
 *                   the members in DPR_HUB_COLLECTING,
 *                   the members that are not in presume_commit in DPR_HUB_COMMITTING,
 *                   presume_commit in DPR_HUB_ABORTING.
 *   members         not 0. As opened, whoever was taken out since.
 *   presume_commit  a part of the members. As opened.
 *   mark            at a box 0 or 1, in every phase. At the hub: 0.
 *   taken_out       at a box and in DPR_HUB_OPEN: 0. Else a part of the members, and nobody of the waiting set.
 * A box's step, and the hub's on a message in DPR_HUB_UNKNOWN, depend on no other member: a site that does not know the
 * members passes the set of `box` alone, and that set or 0 as presume_commit, by its presumption.
 *
 * DPR_ACCEPTED: do in this order what the number says, and nothing where it says 0:
 *   1. append the first record;
 *   2. force the log: all records of the site's one log become stable, those of other handovers too;
 *   3. enter the outcome;
 *   4. send the message, one to each box of the set. A box sends its message to the hub, and the set is that box alone.
 *      Look at the set, not at the kind: where nothing is sent both are 0, and 0 is DPR_PREPARE too;
 *   5. append the last record. A record that is the only effect is the first one.
 * The fields of a record are as passed to this call; but DPR_RECORD_COMMIT has members and presume_commit each without
 * the set taken out after the step.
 * Keep to the order: after a loss of power the effects that happened have to be the first of them.
 * Sends go round: from box handover + 1 up to box 8, then from box 1 up to box handover. DPR_PREPARE goes round to all of
 * the set. DPR_COMMIT and DPR_ABORT go round to the boxes of the set that owe an ack for it, then once more to the others.
 * For DPR_COMMIT the boxes that are not in presume_commit owe one, for DPR_ABORT those that are in it. On handover 5, to
 * the boxes 1, 2, 6 and 7, of which 2 and 7 presume commit: DPR_PREPARE 6 7 1 2, DPR_COMMIT 6 1 7 2, DPR_ABORT 7 2 6 1.
 * The number is the same for every handover; the order is not.
 *
 * The arguments are bytes: C cuts a wider number before the call is made.
 *
 * A step may change nothing: the phase and the two sets as they came, all other bytes 0. Either there is no rule for the
 * kind in this phase, or its rule has nothing to do, as for a vote that comes again; the number does not tell which.
 *
 * Restart is no kind of this call. A site that comes up again does this for each handover, by the stable records that its
 * log has of it; sends go in the order above, and nothing is appended or forced:
 *   hub, DPR_RECORD_COMMIT without DPR_RECORD_COMMIT_END: enter commit. Where members of the record are not in its
 *      presume_commit: send DPR_COMMIT to all its members, then DPR_HUB_COMMITTING, waiting for those. Else Unknown.
 *   hub, DPR_RECORD_INIT without DPR_RECORD_COMMIT and DPR_RECORD_ABORT_END: enter abort, send DPR_ABORT to all its
 *      members, also to those that were taken out, then DPR_HUB_ABORTING, waiting for its presume_commit.
 *   box, DPR_RECORD_COMMITTED: enter commit, DPR_BOX_COMMITTED. DPR_RECORD_ABORTED: enter abort, DPR_BOX_ABORTED.
 *   box, DPR_RECORD_PREPARED alone: send DPR_YES, DPR_BOX_PREPARED.
 *   anything else: Unknown, and nothing is done.
 * From then on a hub passes the members and presume_commit of that record, and taken_out 0. A late message of a box that
 * is not among them is refused, and dropped. */
uint64_t dpr_site_step(uint8_t site, uint8_t kind, uint8_t handover, uint8_t box, uint8_t presumption, uint8_t phase,
                       uint8_t waiting, uint8_t members, uint8_t presume_commit, uint8_t mark, uint8_t taken_out);

/* The drill. An event is six bytes: code, x, y, z, cut, keep. Codes are 0 to 8; 8 marks box y of handover x as one that
 * only looked. Keep says which unforced records of the site survive a loss of power: bit i, of value 1 << i, the record i
 * of those that are unforced then, from 0, oldest first. They become stable in their order, and the others are lost. A set
 * bit for a record that is not there is refused by 9. There are never more than eight, so a byte names them all. Without a
 * loss of power keep is 0. Not more than the first DPR_DRILL_BYTES_MAX bytes are read, which are 10,000 events; no text is longer
 * than DPR_DRILL_TEXT_MAX bytes. */
#define DPR_EVENT_BYTES 6
#define DPR_DRILL_BYTES_MAX 60000
#define DPR_DRILL_TEXT_MAX 220924 /* 10,000 lines of at most 22 bytes, 8 of handovers of 21, 9 of sites of at most 84 */

/* Runs the events in the `len` bytes at `events` from a fresh run, one after another, and writes the drill's whole text
 * from the start of the `text_len` bytes at `text`. Each event has a line: its number from 1, its answer (0, or 1 to 9
 * for a refusal), and how many records, forces and sends happened. A broken last event, of 1 to 5 bytes, answers 1. Then
 * each opened handover has a line: HANDOVER, its number, and for each of the sites 0 to 8 a letter: C (commit was
 * entered), A (abort), X (both) or - (none). No such line has an X, and none has both a C and an A: that is proved for all
 * bytes. Last, each of the sites 0 to 8 has a line of four numbers: the forces that happened there so far, in cut events
 * up to their cut; how many handovers were opened with it (site 0: all); the first divided by the second; and what is
 * left over. So the first is the second times the third plus the fourth, and the fourth is below the second; at a site
 * with which no handover was opened the third is 0, and all forces are left over. The numbers are decimal, with one space
 * between. Forces and handovers are counted in 64 bits, and a count stays at its highest value once there. Every line ends
 * with a newline, and no zero byte follows the text.
 *
 * Returns the length of the text, which has been written; the bytes of the buffer behind it are as they were.
 * Returns 0 where `text_len` is under that length, and then nothing has been written. Without events the text is the nine
 * lines of the sites, 72 bytes; so no text is empty, and 0 always means that `text_len` was too small. */
size_t dpr_drill(const uint8_t *events, size_t len, uint8_t *text, size_t text_len);

/* The bill: what a handover will cost, asked before it is opened. The four bytes of the number that dpr_bill returns: */
#define DPR_BILL_ANSWER(bill) ((uint8_t)(bill))         /* DPR_ACCEPTED or DPR_REFUSED_ARGUMENT */
#define DPR_BILL_RECORDS(bill) ((uint8_t)((bill) >> 8)) /* records appended */
#define DPR_BILL_FORCES(bill) ((uint8_t)((bill) >> 16)) /* times that a log is forced */
#define DPR_BILL_SENDS(bill) ((uint8_t)((bill) >> 24))  /* messages sent, each to one site */

/* The cost of a clean run of a handover that is opened with these `members` and `presume_commit`, at the hub and all
 * members together.
 *
 * A clean run lasts from the opening until none of the handover's messages is left to deliver. In this time:
 * - it is begun, and each message of it that is sent is delivered once. The order does not matter;
 * - it gets no DPR_TIMER at any site, none of its boxes is marked, and none of its records is discarded;
 * - neither the hub nor a member loses power, also not in the middle of a step.
 * Anything else may go on in between: other handovers with their timers, marks and discards, forces of a log that are no
 * part of a step, loss of power at a box that is no member. What was before the opening does not matter, but the hub and
 * all members are up at the opening.
 *
 * Then the hub and every member enter commit, nobody enters abort, and at the end the hub is DPR_HUB_UNKNOWN. The records,
 * forces and sends of the handover's own steps, DPR_BEGIN and the deliveries of its messages, add up to the numbers of the
 * bill. In a drill these are the lines of its own events. That is proved for every list of events with a clean run in it.
 *
 * DPR_ACCEPTED: with n members, of which c are in presume_commit and a = n - c are not, the numbers are
 *   records  2n + 1, plus 1 if c > 0 (DPR_RECORD_INIT), plus 1 if a > 0 (DPR_RECORD_COMMIT_END);
 *   forces   n + a + 1, plus 1 if c > 0;
 *   sends    3n + a.
 * None is above 32. They go by n and c alone, not by which boxes these are.
 * DPR_REFUSED_ARGUMENT: members is 0, or presume_commit is no part of the members. The other bytes are 0.
 *
 * Boxes 1 to 4, of which 2 and 4 presume commit: n is 4, c is 2, a is 2, and dpr_bill(0x0F, 0x0A) is 0x0E080B00, which is
 * 11 records, 8 forces and 14 sends.
 *
 * There is no bill for a run that is not clean, and it may cost more or less than this:
 * - a handover that aborts, or that has a box that only looked;
 * - one with a timer, with a message that comes twice or not at all, or with a loss of power at the hub or a member. What
 *   a site sends at its restart is on no bill.
 * Not in the bill either are forces that are no part of a step of this handover, whosever records they make stable, and
 * what comes behind the clean run: a force before records are discarded, or what it costs that DPR_RECORD_COMMITTED of a
 * box in presume_commit, which is not forced, is lost. */
uint32_t dpr_bill(uint8_t members, uint8_t presume_commit);

#ifdef __cplusplus
}
#endif

#endif
