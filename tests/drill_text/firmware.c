/* dpr_drill and dpr_bill as a C firmware calls them: K1 to K9 of document 01, boxes that only looked, forced writes, the order of sends,
 * records that survive a loss of power, the examples of 01's table of refusals, buffers of every length around the text's, and what a handover
 * will cost. The whole text and all the memory around is compared; the first difference ends the program. */
#include "dpr.h"

#include <stdio.h>
#include <stdlib.h>
#include <string.h>

_Static_assert(DPR_DRILL_BYTES_MAX == 10000 * DPR_EVENT_BYTES, "10,000 events");
_Static_assert(DPR_BILL_ANSWER(0x0D0C0B0Au) == 10 && DPR_BILL_RECORDS(0x0D0C0B0Au) == 11, "the lowest byte first");
_Static_assert(DPR_BILL_FORCES(0x0D0C0B0Au) == 12 && DPR_BILL_SENDS(0x0D0C0B0Au) == 13, "then forces and sends");

enum { GUARD = 64, FILL = 0xEE };

static unsigned checks;
static uint8_t memory[GUARD + DPR_DRILL_TEXT_MAX + GUARD], untouched[sizeof memory];

static void expect(int ok, const char *name, const char *what, const char *wanted, size_t length) {
  checks++;
  if (!ok) {
    fprintf(stderr, "FAILED: %s: %s\n%s  got %zu bytes:\n%.*s\n", name, what, wanted, length, (int)(length < 400 ? length : 400),
            (const char *)memory + GUARD);
    exit(1);
  }
}

/* One call with a buffer of `room` bytes full of EE, with bytes EE on both sides of it. */
static void drill(const char *name, const char *wanted, const uint8_t *events, size_t len, size_t room) {
  size_t length = strlen(wanted), written = length <= room ? length : 0;
  memset(memory, FILL, sizeof memory);
  size_t got = dpr_drill(events, len, memory + GUARD, room);
  expect(got == written, name, "wrong length", wanted, got);
  expect(memcmp(memory + GUARD, wanted, written) == 0, name, "wrong text", wanted, got);
  memset(memory + GUARD, FILL, written);
  expect(memcmp(memory, untouched, sizeof memory) == 0, name, "a byte beside the text was written", wanted, got);
}

/* With room, with room for exactly the text, and without. */
static void drills(const char *name, const char *wanted, const uint8_t *events, size_t len) {
  size_t length = strlen(wanted);
  drill(name, wanted, events, len, DPR_DRILL_TEXT_MAX);
  for (size_t room = 0; room <= length + 2; room++)
    drill(name, wanted, events, len, room);
}

#define DRILL(name, wanted, ...)                   \
  do {                                             \
    const uint8_t events[] = {__VA_ARGS__};        \
    drills(name, wanted, events, sizeof events);   \
  } while (0)

#define NONE 0xFF, 0 /* no cut, no keep */
#define OPEN(handover, members, presume_commit) 0, handover, members, presume_commit, NONE
#define BEGIN(handover) 1, handover, 0, 0, NONE
#define DELIVER_OF(handover, box, kind) 2, handover, box, kind, NONE
#define DELIVER(box, kind) DELIVER_OF(0, box, kind)
#define DELIVER_CUT_OF(handover, box, kind, cut, keep) 2, handover, box, kind, cut, keep
#define DELIVER_CUT(box, kind, cut, keep) DELIVER_CUT_OF(0, box, kind, cut, keep)
#define TIMER_OF(handover, site) 3, handover, site, 0, NONE
#define TIMER(site) TIMER_OF(0, site)
#define FORCE(site) 4, 0, site, 0, NONE
#define DISCARD_OF(handover, site) 5, handover, site, 0, NONE
#define DISCARD(site) DISCARD_OF(0, site)
#define CRASH_KEEP(site, keep) 6, 0, site, 0, 0xFF, keep
#define CRASH(site) CRASH_KEEP(site, 0)
#define RESTART(site) 7, 0, site, 0, NONE
#define MARK(box) 8, 0, box, 0, NONE

/* K1's first three events, all of it, and K2 */
#define VOTED OPEN(0, 1, 1), BEGIN(0), DELIVER(1, DPR_PREPARE)
#define K1 VOTED, DELIVER(1, DPR_YES), DELIVER(1, DPR_COMMIT)
#define K2 OPEN(0, 1, 0), BEGIN(0), DELIVER(1, DPR_PREPARE), DELIVER(1, DPR_YES), DELIVER(1, DPR_COMMIT), DELIVER(1, DPR_COMMIT_ACK)
#define VOTED_TEXT "1 0 0 0 0\n2 0 1 1 1\n3 0 1 1 1\n"
#define K1_TEXT VOTED_TEXT "4 0 1 1 1\n5 0 1 0 0\n"
#define K2_TEXT "1 0 0 0 0\n2 0 0 0 1\n3 0 1 1 1\n4 0 1 1 1\n5 0 1 1 1\n6 0 1 0 0\n"
#define NOTHING "HANDOVER 0 ---------\n"
#define BOTH_COMMIT "HANDOVER 0 CC-------\n"

/* The lines of the sites 0 to 8: forces, handovers, quotient, remainder. Where one handover is opened, quotients are the forces. */
#define ZERO "0 0 0 0\n"
#define SIX(line) line line line line line line
#define NONE_OPENED ZERO ZERO ZERO SIX(ZERO)
#define FORCES(n) #n " 1 " #n " 0\n"
#define ONE_BOX(hub, box1) FORCES(hub) FORCES(box1) ZERO SIX(ZERO)
#define TWO_BOXES(hub, box1, box2) FORCES(hub) FORCES(box1) FORCES(box2) SIX(ZERO)

static void examples(void) {
  DRILL("K1", K1_TEXT BOTH_COMMIT ONE_BOX(2, 1), K1);
  DRILL("K2", K2_TEXT BOTH_COMMIT ONE_BOX(1, 2), K2);
  DRILL("K3", K2_TEXT "7 0 0 0 1\n8 0 0 0 0\n" BOTH_COMMIT ONE_BOX(1, 2), K2, DELIVER(1, DPR_YES), DELIVER(1, DPR_ABORT));
  DRILL("K4", VOTED_TEXT "4 0 1 0 0\n5 0 0 0 1\nHANDOVER 0 A--------\n" ONE_BOX(1, 1), VOTED, DELIVER_CUT(1, DPR_YES, 1, 0), RESTART(0));
  DRILL("K5", VOTED_TEXT "4 0 1 0 0\n5 0 0 0 0\n6 0 0 0 1\n7 0 1 0 0\n" BOTH_COMMIT ONE_BOX(1, 1), VOTED, DELIVER_CUT(1, DPR_YES, 1, 1),
        RESTART(0), DELIVER(1, DPR_YES), DELIVER(1, DPR_COMMIT));
  DRILL("K6, cut 4", VOTED_TEXT "4 0 1 1 1\nHANDOVER 0 C--------\n" ONE_BOX(2, 1), VOTED, DELIVER_CUT(1, DPR_YES, 4, 0));
  DRILL("K6, cut 5", VOTED_TEXT "4 9 0 0 0\n" NOTHING ONE_BOX(1, 1), VOTED, DELIVER_CUT(1, DPR_YES, 5, 0));
  DRILL("K7", K1_TEXT "6 8 0 0 0\n7 0 0 1 0\n8 0 0 0 0\n" BOTH_COMMIT ONE_BOX(2, 2), K1, DISCARD(1), FORCE(1), DISCARD(1));
  DRILL("K8", K1_TEXT "6 0 0 0 0\n7 0 0 0 0\n8 8 0 0 0\n" BOTH_COMMIT ONE_BOX(2, 1), K1, DISCARD(0), DISCARD(0), DISCARD(0));
  DRILL("K9", "1 0 0 0 0\n2 1 0 0 0\n3 1 0 0 0\nHANDOVER 7 ---------\n" FORCES(0) FORCES(0) FORCES(0) SIX(FORCES(0)), OPEN(7, 0xFF, 0),
        OPEN(8, 1, 0), OPEN(6, 0, 0));
}

/* Boxes that only looked. */
static void read_only(void) {
  DRILL("one remains",
        "1 0 0 0 0\n2 0 0 0 0\n3 0 0 0 2\n4 0 0 0 1\n5 0 1 1 1\n6 0 0 0 0\n7 0 1 1 1\n8 0 1 1 1\n9 0 1 0 0\n"
        "HANDOVER 0 C-C------\n" TWO_BOXES(1, 0, 2),
        OPEN(0, 3, 0), MARK(1), BEGIN(0), DELIVER(1, DPR_PREPARE), DELIVER(2, DPR_PREPARE), DELIVER(1, DPR_READ_ONLY), DELIVER(2, DPR_YES),
        DELIVER(2, DPR_COMMIT), DELIVER(2, DPR_COMMIT_ACK));
  DRILL("the last vote",
        "1 0 0 0 0\n2 0 1 1 2\n3 0 0 0 0\n4 0 1 1 1\n5 0 0 0 0\n6 0 0 0 1\n7 0 1 1 1\n8 0 0 0 0\n9 0 0 0 0\n"
        "HANDOVER 0 C--------\n" TWO_BOXES(2, 1, 0),
        OPEN(0, 3, 1), BEGIN(0), MARK(2), DELIVER(1, DPR_PREPARE), DELIVER(1, DPR_YES), DELIVER(2, DPR_PREPARE), DELIVER(2, DPR_READ_ONLY),
        CRASH(0), RESTART(0));
  DRILL("nobody remains", "1 0 0 0 0\n2 0 1 1 1\n3 0 0 0 0\n4 0 0 0 1\n5 0 1 0 0\n" NOTHING ONE_BOX(1, 0), OPEN(0, 1, 1), BEGIN(0), MARK(1),
        DELIVER(1, DPR_PREPARE), DELIVER(1, DPR_READ_ONLY));
  DRILL("Prepare twice", "1 0 0 0 0\n2 0 0 0 1\n3 0 0 0 0\n4 0 0 0 1\n5 0 0 0 1\n6 0 0 0 0\nHANDOVER 0 A--------\n" ONE_BOX(0, 0),
        OPEN(0, 1, 0), BEGIN(0), MARK(1), DELIVER(1, DPR_PREPARE), DELIVER(1, DPR_PREPARE), DELIVER(1, DPR_NO));
  DRILL("not Working", VOTED_TEXT "4 8 0 0 0\n" NOTHING ONE_BOX(1, 1), VOTED, MARK(1));
}

/* Forced writes: a quotient and a remainder, a site without handovers, a force that is refused, cuts around a force. */
static void forces(void) {
  DRILL("a remainder",
        "1 0 0 0 0\n2 0 0 0 0\n3 0 0 1 0\n4 0 0 1 0\n5 0 0 1 0\n6 0 0 1 0\n7 0 0 1 0\n" NOTHING "HANDOVER 1 ---------\n"
        "0 2 0 0\n5 2 2 1\n0 1 0 0\n" SIX(ZERO),
        OPEN(0, 1, 0), OPEN(1, 3, 0), FORCE(1), FORCE(1), FORCE(1), FORCE(1), FORCE(1));
  DRILL("no handover", "1 0 0 1 0\n2 0 0 1 0\n" ZERO ZERO "2 0 0 2\n" SIX(ZERO), FORCE(2), FORCE(2));
  DRILL("down", "1 0 0 0 0\n2 5 0 0 0\n" NONE_OPENED, CRASH(2), FORCE(2));
  DRILL("cut before it", "1 0 0 0 0\n2 0 1 0 0\n" NOTHING ONE_BOX(0, 0), OPEN(0, 1, 1), 1, 0, 0, 0, 1, 1);
  DRILL("cut after it", "1 0 0 0 0\n2 0 1 1 0\n" NOTHING ONE_BOX(1, 0), OPEN(0, 1, 1), 1, 0, 0, 0, 2, 0);
}

/* A cut between sends, and then whom it reached: handover 1 starts at box 2 and goes round from box 8 to box 1. */
#define TO_THREE(kind) DELIVER_OF(1, 1, kind), DELIVER_OF(1, 2, kind), DELIVER_OF(1, 3, kind)
#define THREE_BOXES(hub, box1, box2, box3) FORCES(hub) FORCES(box1) FORCES(box2) FORCES(box3) ZERO ZERO ZERO ZERO ZERO
static void order(void) {
  DRILL("Prepare to 2 and 3", "1 0 0 0 0\n2 0 0 0 2\n3 7 0 0 0\n4 0 1 1 1\n5 0 1 1 1\nHANDOVER 1 ---------\n" THREE_BOXES(0, 0, 1, 1),
        OPEN(1, 7, 0), 1, 1, 0, 0, 2, 0, TO_THREE(DPR_PREPARE));
  DRILL("Abort to 3, which owes an ack",
        "1 0 0 0 0\n2 0 1 1 3\n3 0 0 0 1\n4 7 0 0 0\n5 7 0 0 0\n6 0 1 1 1\nHANDOVER 1 A--A-----\n" THREE_BOXES(1, 0, 0, 1),
        OPEN(1, 7, DPR_BIT(3)), BEGIN(1), 3, 1, 0, 0, 2, 0, TO_THREE(DPR_ABORT));
}

/* Keep names unforced records of the site, the oldest by its lowest bit: all of one, and the second of two, in a crash and in a cut event. */
#define TWO_OPENED OPEN(0, 1, 0), OPEN(1, 1, 0), BEGIN(0), BEGIN(1)
#define TWO_OPENED_TEXT "1 0 0 0 0\n2 0 0 0 0\n3 0 0 0 1\n4 0 0 0 1\n"
#define BOTH_ABORT "HANDOVER 0 AA-------\nHANDOVER 1 AA-------\n"
static void survivors(void) {
  DRILL("one record", K1_TEXT "6 9 0 0 0\n7 0 0 0 0\n8 0 0 0 0\n" BOTH_COMMIT ONE_BOX(2, 1), K1, CRASH_KEEP(1, 2), CRASH_KEEP(1, 1), RESTART(1));
  DRILL("the second of two",
        TWO_OPENED_TEXT "5 0 1 1 1\n6 0 0 0 1\n7 0 0 0 1\n8 0 1 0 0\n9 0 1 0 0\n10 9 0 0 0\n11 0 0 0 0\n12 0 0 0 1\n" BOTH_ABORT
        "0 2 0 0\n1 2 0 1\n" ZERO SIX(ZERO),
        TWO_OPENED, DELIVER(1, DPR_PREPARE), TIMER(0), TIMER_OF(1, 0), DELIVER(1, DPR_ABORT), DELIVER_OF(1, 1, DPR_ABORT), CRASH_KEEP(1, 4),
        CRASH_KEEP(1, 2), RESTART(1));
  DRILL("the second of two, cut behind it",
        TWO_OPENED_TEXT "5 0 0 0 1\n6 0 0 0 1\n7 0 1 0 0\n8 9 0 0 0\n9 0 1 0 0\n10 0 0 0 0\n11 8 0 0 0\n12 0 0 0 0\n" BOTH_ABORT
        "0 2 0 0\n0 2 0 0\n" ZERO SIX(ZERO),
        TWO_OPENED, TIMER(0), TIMER_OF(1, 0), DELIVER(1, DPR_ABORT), DELIVER_CUT_OF(1, 1, DPR_ABORT, 0, 2), DELIVER_CUT_OF(1, 1, DPR_ABORT, 1, 2),
        RESTART(1), DISCARD(1), DISCARD_OF(1, 1));
}

/* The examples of the table, in its order; 8 is a code since Job 3, and there box 0 is out of range. */
static void refusals(void) {
  DRILL("1, code 8", "1 1 0 0 0\n" NONE_OPENED, 8, 0, 0, 0, NONE);
  DRILL("1, code 9", "1 1 0 0 0\n" NONE_OPENED, 9, 0, 1, 0, NONE);
  DRILL("1, five bytes", "1 0 0 0 0\n2 1 0 0 0\n" NOTHING ONE_BOX(0, 0), OPEN(0, 1, 1), 1, 0, 0, 0, 0xFF);
  DRILL("2", "1 0 0 0 0\n2 2 0 0 0\n" NOTHING ONE_BOX(0, 0), OPEN(0, 1, 0), OPEN(0, 1, 0));
  DRILL("3", "1 3 0 0 0\n" NONE_OPENED, BEGIN(0));
  DRILL("4", "1 0 0 0 0\n2 4 0 0 0\n" NOTHING ONE_BOX(0, 0), OPEN(0, 1, 0), TIMER(2));
  DRILL("5", "1 0 0 0 0\n2 5 0 0 0\n" NONE_OPENED, CRASH(0), CRASH(0));
  DRILL("6", "1 6 0 0 0\n" NONE_OPENED, RESTART(0));
  DRILL("7", "1 0 0 0 0\n2 7 0 0 0\n" NOTHING ONE_BOX(0, 0), OPEN(0, 1, 0), DELIVER(1, DPR_PREPARE));
  DRILL("8", "1 0 0 0 0\n2 0 0 0 1\n3 8 0 0 0\n" NOTHING ONE_BOX(0, 0), OPEN(0, 1, 0), BEGIN(0), BEGIN(0));
  DRILL("9", "1 9 0 0 0\n" NONE_OPENED, 6, 0, 0, 0, 0xFF, 1);
  drills("no event", NONE_OPENED, (const uint8_t[]){0}, 0);
}

/* 10,000 forces of the hub, and an opening behind them that is not read. */
static void longest(void) {
  static uint8_t events[DPR_DRILL_BYTES_MAX + DPR_EVENT_BYTES];
  static char wanted[DPR_DRILL_TEXT_MAX + 1];
  size_t length = 0, last = 0;
  for (unsigned i = 0; i < 10000; i++) {
    memcpy(events + DPR_EVENT_BYTES * i, (const uint8_t[]){FORCE(0)}, DPR_EVENT_BYTES);
    last = length;
    length += (size_t)sprintf(wanted + length, "%u 0 0 1 0\n", i + 1);
  }
  length += (size_t)sprintf(wanted + length, "10000 0 0 10000\n" ZERO ZERO SIX(ZERO));
  memcpy(events + DPR_DRILL_BYTES_MAX, (const uint8_t[]){OPEN(0, 1, 0)}, DPR_EVENT_BYTES);
  for (size_t len = DPR_DRILL_BYTES_MAX; len <= sizeof events; len++)
    drill("60,000 bytes and more", wanted, events, len, length);
  drill("60,000 bytes and more", wanted, events, sizeof events, length - 1);
  drill("60,000 bytes and more", wanted, events, sizeof events, DPR_DRILL_TEXT_MAX);
  /* the last event is broken */
  strcpy(wanted + last, "10000 1 0 0 0\n9999 0 0 9999\n" ZERO ZERO SIX(ZERO));
  drill("59,999 bytes", wanted, events, DPR_DRILL_BYTES_MAX - 1, DPR_DRILL_TEXT_MAX);
}

/* What a handover will cost in a clean run, asked before it is opened. */
static void costs(const char *name, uint8_t members, uint8_t presume_commit, unsigned records, unsigned forces, unsigned sends) {
  uint32_t bill = dpr_bill(members, presume_commit);
  checks++;
  if (DPR_BILL_ANSWER(bill) != DPR_ACCEPTED || DPR_BILL_RECORDS(bill) != records || DPR_BILL_FORCES(bill) != forces ||
      DPR_BILL_SENDS(bill) != sends) {
    fprintf(stderr, "FAILED: %s: bill %08X instead of %u records, %u forces, %u sends\n", name, (unsigned)bill, records, forces, sends);
    exit(1);
  }
}

static void has_no_bill(uint8_t members, uint8_t presume_commit) {
  uint32_t bill = dpr_bill(members, presume_commit);
  checks++;
  if (DPR_BILL_ANSWER(bill) != DPR_REFUSED_ARGUMENT || bill != DPR_REFUSED_ARGUMENT) {
    fprintf(stderr, "FAILED: members %u, presume_commit %u: bill %08X\n", members, presume_commit, (unsigned)bill);
    exit(1);
  }
}

/* A battery pays for forces: the set that is to presume commit so that there are the fewest, the lowest of such sets. */
static uint8_t fewest_forces(uint8_t members) {
  uint8_t best = 0, forces = UINT8_MAX;
  for (unsigned set = 0; set <= members; set++) {
    uint32_t bill = dpr_bill(members, (uint8_t)set);
    if (DPR_BILL_ANSWER(bill) == DPR_ACCEPTED && DPR_BILL_FORCES(bill) < forces) {
      best = (uint8_t)set;
      forces = DPR_BILL_FORCES(bill);
    }
  }
  return best;
}

static void presumes(const char *name, uint8_t members, uint8_t wanted) {
  uint8_t got = fewest_forces(members);
  checks++;
  if (got != wanted) {
    fprintf(stderr, "FAILED: %s: fewest forces where %02X presume commit instead of %02X\n", name, got, wanted);
    exit(1);
  }
}

static void bills(void) {
  const uint8_t three = DPR_BIT(1) | DPR_BIT(2) | DPR_BIT(3), apart = DPR_BIT(2) | DPR_BIT(5) | DPR_BIT(8);
  costs("K1", 1, 1, 4, 3, 3);
  costs("K2", 1, 0, 4, 3, 4);
  costs("three boxes, all presume abort", three, 0, 8, 7, 12);
  costs("three boxes, one presumes commit", three, DPR_BIT(2), 9, 7, 11);
  costs("three boxes, two presume commit", apart, DPR_BIT(2) | DPR_BIT(8), 9, 6, 10);
  costs("three boxes, all presume commit", apart, apart, 8, 5, 9);
  costs("eight boxes, all presume abort", 0xFF, 0, 18, 17, 32);
  costs("eight boxes, all presume commit", 0xFF, 0xFF, 18, 10, 24);
  has_no_bill(0, 0);
  has_no_bill(0, 1);
  has_no_bill(three, DPR_BIT(4));
  has_no_bill(apart, 0xFF);
  presumes("one box, where it is all the same", 1, 0);
  presumes("three boxes", apart, apart);
  presumes("eight boxes", 0xFF, 0xFF);
}

int main(void) {
  memset(untouched, FILL, sizeof untouched);
  examples();
  read_only();
  forces();
  order();
  survivors();
  refusals();
  longest();
  bills();
  printf("firmware in C: %u checks, ok\n", checks);
  return 0;
}
