/* dpr_site_step as a C firmware calls it: the examples of one site's step on numbers (docs/DECISIONS.md), whole handovers of a
 * hub and two boxes, and the order of sends to eight, which machine.h plays. The first difference ends the program. */
#include "machine.h"

_Static_assert(DPR_BIT(1) == 0x01 && DPR_BIT(8) == 0x80, "bit b - 1 is box b");

static void example(const char *name, const char *wanted, const uint8_t a[11]) {
  char got[64];
  show(dpr_site_step(a[0], a[1], a[2], a[3], a[4], a[5], a[6], a[7], a[8], a[9], a[10]), got, sizeof got);
  same_text(name, "answer, phase, waiting, taken out, first and last record, forced, outcome, message, boxes", wanted, got);
}

#define EXAMPLE(name, wanted, ...) example(name, wanted, (const uint8_t[11]){__VA_ARGS__})
#define REFUSED "1 0 0 0 0 0 0 0 0 0"

static void examples(void) {
  EXAMPLE("I01", "0 1 1 0 0 0 0 0 0 0", DPR_HUB, DPR_BEGIN, 0, 0, 0, DPR_HUB_COLLECTING, 1, 1, 1, 0, 0);
  EXAMPLE("I02", "0 4 0 0 0 0 0 0 0 0", DPR_HUB, DPR_TIMER, 0, 0, 0, DPR_HUB_UNKNOWN, 0, 1, 1, 0, 0);
  EXAMPLE("I02b", "0 2 0 0 0 0 0 0 0 0", 1, DPR_TIMER, 0, 1, DPR_PRESUME_ABORT, DPR_BOX_COMMITTED, 0, 1, 0, 0, 0);
  EXAMPLE("I03", "0 0 0 0 0 0 0 0 0 0", DPR_HUB, DPR_NO, 0, 1, DPR_PRESUME_ABORT, DPR_HUB_OPEN, 0, 1, 0, 0, 0);
  EXAMPLE("I04", REFUSED, DPR_HUB, DPR_BEGIN, 0, 1, 0, DPR_HUB_OPEN, 0, 1, 0, 0, 0);
  EXAMPLE("I05", REFUSED, DPR_HUB, DPR_YES, 0, 1, DPR_PRESUME_COMMIT, DPR_HUB_UNKNOWN, 0, 1, 0, 0, 0);
  EXAMPLE("I06", REFUSED, DPR_HUB, DPR_NO, 0, 1, 2, DPR_HUB_COLLECTING, 1, 1, 0, 0, 0);
  EXAMPLE("I07", REFUSED, 1, DPR_PREPARE, 0, 1, DPR_PRESUME_ABORT, DPR_BOX_WORKING, 1, 1, 0, 0, 0);
  EXAMPLE("I08", REFUSED, 1, DPR_PREPARE, 0, 2, DPR_PRESUME_ABORT, DPR_BOX_WORKING, 0, 3, 0, 0, 0);
  EXAMPLE("I09", REFUSED, 2, DPR_PREPARE, 0, 2, DPR_PRESUME_ABORT, DPR_BOX_WORKING, 0, 1, 0, 0, 0);
  EXAMPLE("I10", REFUSED, DPR_HUB, DPR_PREPARE, 0, 1, DPR_PRESUME_ABORT, DPR_HUB_COLLECTING, 1, 1, 0, 0, 0);
  EXAMPLE("I11", REFUSED, 1, DPR_BEGIN, 0, 1, DPR_PRESUME_ABORT, DPR_BOX_WORKING, 0, 1, 0, 0, 0);
  EXAMPLE("I12", REFUSED, DPR_HUB, DPR_TIMER, 0, 0, 0, DPR_HUB_COMMITTING, 1, 1, 1, 0, 0);
  EXAMPLE("I13", REFUSED, DPR_HUB, DPR_TIMER, 0, 0, 0, DPR_HUB_COMMITTING, 0, 1, 0, 0, 0);
  EXAMPLE("I14", REFUSED, DPR_HUB, DPR_TIMER, 0, 0, 0, DPR_HUB_ABORTING, 1, 3, 2, 0, 0);
  EXAMPLE("I15", REFUSED, DPR_HUB, DPR_YES, 0, 1, DPR_PRESUME_ABORT, DPR_HUB_COLLECTING, 3, 1, 0, 0, 0);
  EXAMPLE("I16", REFUSED, DPR_HUB, DPR_BEGIN, 0, 0, 0, DPR_HUB_OPEN, 1, 1, 0, 0, 0);
  EXAMPLE("I17", REFUSED, DPR_HUB, DPR_BEGIN, 0, 0, 0, DPR_HUB_OPEN, 0, 0, 0, 0, 0);
  EXAMPLE("I19", "0 4 0 0 0 0 0 2 4 2", DPR_HUB, DPR_NO, 0, 1, DPR_PRESUME_ABORT, DPR_HUB_COLLECTING, 2, 3, 0, 0, 0);
  EXAMPLE("I20", "0 1 2 0 0 0 0 0 0 0", DPR_HUB, DPR_YES, 0, 1, DPR_PRESUME_ABORT, DPR_HUB_COLLECTING, 2, 3, 0, 0, 0);
  EXAMPLE("I21", "0 2 2 0 0 0 0 0 0 0", DPR_HUB, DPR_COMMIT_ACK, 0, 1, DPR_PRESUME_ABORT, DPR_HUB_COMMITTING, 2, 3, 0, 0, 0);
  EXAMPLE("I22", "0 2 2 0 0 0 0 0 0 0", DPR_HUB, DPR_COMMIT_ACK, 0, 1, DPR_PRESUME_COMMIT, DPR_HUB_COMMITTING, 2, 3, 1, 0, 0);
  EXAMPLE("I23", "0 0 0 0 0 0 0 0 0 0", DPR_HUB, DPR_YES, 0, 1, DPR_PRESUME_ABORT, DPR_HUB_OPEN, 0, 1, 0, 0, 0);
  /* a hub that has forgotten the members */
  EXAMPLE("Yes of PrC", "0 4 0 0 0 0 0 0 3 4", DPR_HUB, DPR_YES, 0, 3, DPR_PRESUME_COMMIT, DPR_HUB_UNKNOWN, 0, 4, 4, 0, 0);
  EXAMPLE("Yes of PrA", "0 4 0 0 0 0 0 0 4 4", DPR_HUB, DPR_YES, 0, 3, DPR_PRESUME_ABORT, DPR_HUB_UNKNOWN, 0, 4, 0, 0, 0);
  /* numbers above what is in range; I18's members above 255 fit no argument */
  EXAMPLE("handover 7", "0 1 1 0 0 0 0 0 0 1", DPR_HUB, DPR_BEGIN, 7, 0, 0, DPR_HUB_OPEN, 0, 1, 0, 0, 0);
  EXAMPLE("handover 8", REFUSED, DPR_HUB, DPR_BEGIN, 8, 0, 0, DPR_HUB_OPEN, 0, 1, 0, 0, 0);
  EXAMPLE("phase 5", REFUSED, DPR_HUB, DPR_TIMER, 0, 0, 0, 5, 0, 1, 0, 0, 0);
  EXAMPLE("kind 18", REFUSED, DPR_HUB, 18, 0, 0, 0, DPR_HUB_OPEN, 0, 1, 0, 0, 0);
  EXAMPLE("site 9", REFUSED, 9, DPR_TIMER, 0, 9, 0, DPR_BOX_WORKING, 0, 255, 0, 0, 0);
  EXAMPLE("all 255", REFUSED, 255, 255, 255, 255, 255, 255, 255, 255, 255, 255, 255);
}

/* Job 3: boxes that only looked */
static void read_only_examples(void) {
  EXAMPLE("3.12.2", "0 4 0 2 2 0 1 1 3 1", DPR_HUB, DPR_READ_ONLY, 0, 2, DPR_PRESUME_ABORT, DPR_HUB_COLLECTING, 2, 3, 1, 0, 0);
  EXAMPLE("3.12.3", "0 2 2 1 2 0 1 1 3 2", DPR_HUB, DPR_YES, 0, 2, DPR_PRESUME_ABORT, DPR_HUB_COLLECTING, 2, 3, 1, 0, 1);
  EXAMPLE("3.25.1", REFUSED, DPR_HUB, DPR_TIMER, 0, 0, 0, DPR_HUB_COLLECTING, 1, 3, 2, 1, 0);
  EXAMPLE("3.25.2", REFUSED, 1, DPR_TIMER, 0, 1, DPR_PRESUME_ABORT, DPR_BOX_WORKING, 0, 3, 2, 0, 2);
  EXAMPLE("3.25.3", REFUSED, DPR_HUB, DPR_TIMER, 0, 0, 0, DPR_HUB_COLLECTING, 1, 3, 2, 2, 0);
  EXAMPLE("3.25.4", REFUSED, DPR_HUB, DPR_BEGIN, 0, 0, 0, DPR_HUB_OPEN, 0, 3, 2, 0, 1);
  EXAMPLE("3.25.5", REFUSED, DPR_HUB, DPR_TIMER, 0, 0, 0, DPR_HUB_COLLECTING, 3, 3, 2, 0, 1);
  EXAMPLE("3.25.6", REFUSED, DPR_HUB, DPR_TIMER, 0, 0, 0, DPR_HUB_COLLECTING, 1, 3, 2, 0, 4);
  EXAMPLE("3.25.7", "0 4 0 3 0 0 0 0 4 1", DPR_HUB, DPR_YES, 0, 1, DPR_PRESUME_ABORT, DPR_HUB_UNKNOWN, 0, 3, 2, 0, 3);
  EXAMPLE("3.25.8", "0 1 0 0 0 0 0 0 1 1", 1, DPR_PREPARE, 0, 1, DPR_PRESUME_ABORT, DPR_BOX_PREPARED, 0, 3, 2, 1, 0);
  EXAMPLE("3.25.9", REFUSED, 1, DPR_READ_ONLY, 0, 1, DPR_PRESUME_ABORT, DPR_BOX_WORKING, 0, 3, 2, 0, 0);
  EXAMPLE("3.26.1", "0 1 2 1 0 0 0 0 0 0", DPR_HUB, DPR_READ_ONLY, 0, 1, DPR_PRESUME_ABORT, DPR_HUB_COLLECTING, 3, 3, 2, 0, 0);
  EXAMPLE("3.26.2", "0 4 0 1 2 0 1 1 3 2", DPR_HUB, DPR_READ_ONLY, 0, 1, DPR_PRESUME_ABORT, DPR_HUB_COLLECTING, 1, 3, 2, 0, 0);
  EXAMPLE("3.26.3", "0 4 0 3 4 0 0 0 0 0", DPR_HUB, DPR_READ_ONLY, 0, 1, DPR_PRESUME_ABORT, DPR_HUB_COLLECTING, 1, 3, 2, 0, 2);
  EXAMPLE("3.26.4", "0 4 0 3 0 0 0 0 0 0", DPR_HUB, DPR_READ_ONLY, 0, 1, DPR_PRESUME_ABORT, DPR_HUB_COLLECTING, 1, 3, 0, 0, 2);
  EXAMPLE("3.26.5", "0 4 0 2 0 4 0 2 0 0", DPR_HUB, DPR_NO, 0, 1, DPR_PRESUME_ABORT, DPR_HUB_COLLECTING, 1, 3, 2, 0, 2);
  EXAMPLE("3.27.1", "0 3 2 1 0 0 0 0 4 1", DPR_HUB, DPR_YES, 0, 1, DPR_PRESUME_ABORT, DPR_HUB_ABORTING, 2, 3, 2, 0, 1);
  EXAMPLE("3.27.3", "0 2 4 1 0 0 0 0 3 1", DPR_HUB, DPR_YES, 0, 1, DPR_PRESUME_ABORT, DPR_HUB_COMMITTING, 4, 7, 2, 0, 1);
  EXAMPLE("3.27.4", "0 1 2 1 0 0 0 0 0 0", DPR_HUB, DPR_YES, 0, 1, DPR_PRESUME_ABORT, DPR_HUB_COLLECTING, 2, 3, 2, 0, 1);
  EXAMPLE("3.28.1", "0 1 2 1 0 0 0 0 0 0", DPR_HUB, DPR_READ_ONLY, 0, 1, DPR_PRESUME_ABORT, DPR_HUB_COLLECTING, 2, 3, 2, 0, 0);
  EXAMPLE("3.29.1", REFUSED, DPR_HUB, DPR_READ_ONLY, 0, 1, DPR_PRESUME_COMMIT, DPR_HUB_COLLECTING, 3, 3, 2, 0, 0);
}

static void handovers(void) {
  open_handover("K1: one box, PrC", 1, 1);
  step(DPR_HUB, DPR_BEGIN, 0, "a1 f s1:0");
  deliver("a5 f s1:1");
  deliver("a2 f eC s1:3");
  deliver("a6 eC");
  all_delivered();
  after(DPR_HUB, "4 0 0 C: 1 5 1 1 2 5 1 1 |");
  after(1, "2 0 0 C: 5 5 1 | 6 5");
  deliver_again(1, "s1:3"); /* the Yes again: the hub has forgotten, and presumes what the box presumes */
  deliver("");

  open_handover("K2, K3: one box, PrA", 1, 0);
  step(DPR_HUB, DPR_BEGIN, 0, "s1:0");
  deliver("a5 f s1:1");
  deliver("a2 f eC s1:3");
  after(DPR_HUB, "2 1 0 C: 2 5 1 0 |");
  deliver("a6 f eC s1:5");
  deliver("a3");
  all_delivered();
  after(DPR_HUB, "4 0 0 C: 2 5 1 0 | 3 5");
  after(1, "2 0 0 C: 5 5 0 6 5 |");
  deliver_again(1, "s1:4"); /* the Yes again: the hub has forgotten, and the box ignores the Abort */
  deliver("");
  after(DPR_HUB, "4 0 0 C: 2 5 1 0 | 3 5");
  after(1, "2 0 0 C: 5 5 0 6 5 |");

  /* box 1 presumes commit, box 2 abort: Commit goes to 2 first, Abort to 1 first */
  open_handover("commit of two", 3, DPR_BIT(1));
  step(DPR_HUB, DPR_BEGIN, 0, "a1 f s1:0 s2:0");
  deliver("a5 f s1:1");
  deliver("a5 f s2:1");
  deliver_again(0, "s1:1"); /* Prepare again */
  deliver("");              /* Yes of 1: one vote is missing */
  after(DPR_HUB, "1 2 0 : 1 5 3 1 |");
  timer(1, "s1:1");
  deliver("a2 f eC s2:3 s1:3");
  deliver("s1:3"); /* Yes of 1 again */
  after(DPR_HUB, "2 2 0 C: 1 5 3 1 2 5 3 1 |");
  timer(DPR_HUB, "s2:3");
  deliver("s1:3");
  deliver("a6 f eC s2:5");
  deliver("a6 eC");
  deliver(""); /* Commit to 1 again */
  deliver("s2:5");
  deliver("");
  deliver("a3");
  deliver(""); /* CommitAck again */
  all_delivered();
  after(DPR_HUB, "4 0 0 C: 1 5 3 1 2 5 3 1 | 3 5");
  after(1, "2 0 0 C: 5 5 1 | 6 5");
  after(2, "2 0 0 C: 5 5 0 6 5 |");

  open_handover("abort by No of PrA", 3, DPR_BIT(1));
  timer(2, "eA");
  after(2, "4 0 0 A: |");
  step(DPR_HUB, DPR_BEGIN, 0, "a1 f s1:0 s2:0");
  deliver("a5 f s1:1");
  deliver("s2:2");
  deliver("");
  deliver("eA s1:4");
  after(DPR_HUB, "3 1 0 A: 1 5 3 1 |");
  deliver_again(2, "s1:4"); /* Yes of 1 again */
  deliver("a7 f eA s1:6");
  deliver("s1:6");
  deliver("a4");
  deliver("");
  all_delivered();
  after(DPR_HUB, "4 0 0 A: 1 5 3 1 | 4 5");
  after(1, "3 0 0 A: 5 5 1 7 5 |");

  open_handover("abort by No of the only PrC", 3, DPR_BIT(1));
  timer(1, "eA");
  step(DPR_HUB, DPR_BEGIN, 0, "a1 f s1:0 s2:0");
  deliver("s1:2");
  deliver("a5 f s2:1");
  deliver("eA s2:4 a4"); /* nobody owes an ack: the record comes last */
  after(DPR_HUB, "4 0 0 A: 1 5 3 1 | 4 5");
  deliver("s2:4"); /* Yes of 2 at the hub in Unknown */
  deliver("a7 eA");
  deliver("");
  all_delivered();
  after(2, "3 0 0 A: 5 5 0 | 7 5");

  open_handover("abort by timer", 3, DPR_BIT(2));
  step(DPR_HUB, DPR_BEGIN, 0, "a1 f s1:0 s2:0");
  timer(DPR_HUB, "eA s2:4 s1:4"); /* 2 owes an ack and comes first */
  after(DPR_HUB, "3 2 0 A: 1 5 3 2 |");
  timer(DPR_HUB, "s2:4");
  deliver("a5 f s1:1");
  deliver("a5 f s2:1");
  deliver("a7 f eA s2:6");
  deliver("a7 eA");
  deliver("s2:6");
  deliver("s1:4");
  deliver("s2:4");
  deliver("a4");
  timer(DPR_HUB, "");
  after(DPR_HUB, "4 0 0 A: 1 5 3 2 | 4 5");
  after(1, "3 0 0 A: 5 5 0 | 7 5");
  after(2, "3 0 0 A: 5 5 1 7 5 |");
  deliver_again(0, "s1:2"); /* a late Prepare */
  deliver_again(1, "s2:2");

  open_handover("abort by timer, all PrA", 3, 0);
  step(DPR_HUB, DPR_BEGIN, 0, "s1:0 s2:0");
  timer(DPR_HUB, "eA s1:4 s2:4");
  after(DPR_HUB, "4 0 0 A: |");
  deliver_again(2, "a7 eA"); /* the Abort comes before the Prepare */
  deliver_again(0, "s1:2");
  after(1, "3 0 0 A: | 7 5");

  open_handover("abort by No of the only box", 1, 1);
  timer(1, "eA");
  step(DPR_HUB, DPR_BEGIN, 0, "a1 f s1:0");
  deliver("s1:2");
  deliver("eA a4"); /* nobody is left to be told */
  all_delivered();
  after(DPR_HUB, "4 0 0 A: 1 5 1 1 | 4 5");
}

static void read_only_handovers(void) {
  /* box 1 presumes commit, box 2 abort */
  open_handover("box 1 only looked", 3, DPR_BIT(1));
  only_looked(1);
  step(DPR_HUB, DPR_BEGIN, 0, "a1 f s1:0 s2:0");
  deliver("s1:7");
  after(1, "4 0 0 : |");
  deliver("a5 f s2:1");
  deliver("");
  after(DPR_HUB, "1 2 1 : 1 5 3 1 |");
  deliver_again(2, ""); /* the read-only vote again */
  deliver("a2 f eC s2:3");
  after(DPR_HUB, "2 2 1 C: 1 5 3 1 2 5 2 0 |");
  deliver("a6 f eC s2:5");
  deliver("a3");
  all_delivered();
  after(DPR_HUB, "4 0 1 C: 1 5 3 1 2 5 2 0 | 3 5");
  after(1, "4 0 0 : |");

  open_handover("box 2 only looked, and its vote comes last", 3, DPR_BIT(1));
  step(DPR_HUB, DPR_BEGIN, 0, "a1 f s1:0 s2:0");
  only_looked(2);
  deliver("a5 f s1:1");
  deliver("s2:7");
  deliver("");
  deliver("a2 f eC s1:3"); /* only box 1 remains, and no ack is owed */
  after(DPR_HUB, "4 0 2 C: 1 5 3 1 2 5 1 1 |");
  deliver("a6 eC");
  all_delivered();
  restart_hub("eC");
  after(DPR_HUB, "4 0 0 CC: 1 5 3 1 2 5 1 1 |");
  dropped(3); /* the read-only vote of box 2, which is not in the record */

  open_handover("restart from a Commit of fewer", 3, 0);
  only_looked(1);
  step(DPR_HUB, DPR_BEGIN, 0, "s1:0 s2:0");
  deliver("s1:7");
  deliver("a5 f s2:1");
  deliver("");
  deliver("a2 f eC s2:3");
  restart_hub("eC s2:3");
  after(DPR_HUB, "2 2 0 CC: 2 5 2 0 |");
  dropped(2);
  deliver("a6 f eC s2:5");
  deliver("s2:5");
  deliver("a3");
  deliver("");
  all_delivered();

  open_handover("restart from Init tells all", 3, DPR_BIT(1));
  only_looked(1);
  step(DPR_HUB, DPR_BEGIN, 0, "a1 f s1:0 s2:0");
  deliver("s1:7");
  deliver("a5 f s2:1");
  deliver("");
  restart_hub("eA s1:4 s2:4");
  after(DPR_HUB, "3 1 0 A: 1 5 3 1 |");
  deliver("s2:4"); /* Yes of 2 */
  deliver("s1:6"); /* box 1 has forgotten it, and acks */
  deliver("a7 eA");
  deliver("");
  deliver("a4");
  all_delivered();

  open_handover("both only looked", 3, DPR_BIT(1));
  only_looked(1);
  only_looked(2);
  step(DPR_HUB, DPR_BEGIN, 0, "a1 f s1:0 s2:0");
  deliver("s1:7");
  deliver("s2:7");
  deliver("");
  deliver("a4"); /* nobody remains: nothing is entered */
  all_delivered();
  after(DPR_HUB, "4 0 3 : 1 5 3 1 | 4 5");
  restart_hub("eA s1:4 s2:4"); /* the record was lost */

  open_handover("both only looked, all PrA", 3, 0);
  only_looked(1);
  only_looked(2);
  step(DPR_HUB, DPR_BEGIN, 0, "s1:0 s2:0");
  deliver("s1:7");
  deliver("s2:7");
  deliver("");
  deliver("");
  after(DPR_HUB, "4 0 3 : |");

  open_handover("Prepare twice, and the No comes first", 1, 1);
  only_looked(1);
  step(DPR_HUB, DPR_BEGIN, 0, "a1 f s1:0");
  deliver("s1:7");
  deliver_again(0, "s1:2");
  deliver_again(2, "eA a4");
  deliver("");
  after(DPR_HUB, "4 0 0 A: 1 5 1 1 | 4 5");

  open_handover("Prepare twice, and the No comes second", 3, 0);
  only_looked(1);
  step(DPR_HUB, DPR_BEGIN, 0, "s1:0 s2:0");
  deliver("s1:7");
  deliver_again(0, "s1:2");
  deliver("a5 f s2:1");
  deliver("");
  deliver("");
  after(DPR_HUB, "1 2 1 : |");
  deliver("a2 f eC s2:3");

  open_handover("the timer of a box that only looked", 1, 0);
  only_looked(1);
  timer(1, "eA");
  step(DPR_HUB, DPR_BEGIN, 0, "s1:0");
  deliver("s1:2");
  deliver("eA");

  open_handover("abort, the only PrC taken out", 3, DPR_BIT(1));
  only_looked(1);
  step(DPR_HUB, DPR_BEGIN, 0, "a1 f s1:0 s2:0");
  deliver("s1:7");
  deliver_again(2, "");
  timer(DPR_HUB, "eA s2:4 a4"); /* Init was, and nobody owes an ack */
  after(DPR_HUB, "4 0 1 A: 1 5 3 1 | 4 5");

  open_handover("Abort at a box that only looked", 1, 1);
  only_looked(1);
  step(DPR_HUB, DPR_BEGIN, 0, "a1 f s1:0");
  timer(DPR_HUB, "eA s1:4");
  deliver_again(1, "a7 f eA s1:6"); /* the Abort comes before the Prepare */
  deliver_again(0, "s1:2");
  after(1, "3 0 0 A: 7 5 |");
}

static void deliver_each(unsigned count, const char *effects) {
  while (count--)
    deliver(effects);
}

/* Job 5: each handover starts at another box */
static void order(void) {
  static const char *const prepares[8] = {
      "s1:0 s2:0 s3:0 s4:0 s5:0 s6:0 s7:0 s8:0", "s2:0 s3:0 s4:0 s5:0 s6:0 s7:0 s8:0 s1:0",
      "s3:0 s4:0 s5:0 s6:0 s7:0 s8:0 s1:0 s2:0", "s4:0 s5:0 s6:0 s7:0 s8:0 s1:0 s2:0 s3:0",
      "s5:0 s6:0 s7:0 s8:0 s1:0 s2:0 s3:0 s4:0", "s6:0 s7:0 s8:0 s1:0 s2:0 s3:0 s4:0 s5:0",
      "s7:0 s8:0 s1:0 s2:0 s3:0 s4:0 s5:0 s6:0", "s8:0 s1:0 s2:0 s3:0 s4:0 s5:0 s6:0 s7:0",
  };
  for (uint8_t handover = 0; handover < 8; handover++) {
    open_number("Prepare to all", handover, 255, 0);
    step(DPR_HUB, DPR_BEGIN, 0, prepares[handover]);
  }

  open_number("5.03.2", 1, 7, DPR_BIT(1));
  step(DPR_HUB, DPR_BEGIN, 0, "a1 f s2:0 s3:0 s1:0");
  deliver("a5 f s2:1");
  deliver("a5 f s3:1");
  deliver("a5 f s1:1");
  deliver_each(2, "");
  deliver("a2 f eC s2:3 s3:3 s1:3");
  open_number("5.01.4", 1, 7, DPR_BIT(1) | DPR_BIT(3));
  step(DPR_HUB, DPR_BEGIN, 0, "a1 f s2:0 s3:0 s1:0");
  timer(DPR_HUB, "eA s3:4 s1:4 s2:4");
  open_number("5.03.3", 1, 7, DPR_BIT(3));
  step(DPR_HUB, DPR_BEGIN, 0, "a1 f s2:0 s3:0 s1:0");
  timer(DPR_HUB, "eA s3:4 s2:4 s1:4");

  /* the example of dpr.h */
  open_number("6 7 1 2", 5, DPR_BIT(1) | DPR_BIT(2) | DPR_BIT(6) | DPR_BIT(7), DPR_BIT(2) | DPR_BIT(7));
  step(DPR_HUB, DPR_BEGIN, 0, "a1 f s6:0 s7:0 s1:0 s2:0");
  deliver("a5 f s6:1");
  deliver("a5 f s7:1");
  deliver("a5 f s1:1");
  deliver("a5 f s2:1");
  deliver_each(3, "");
  deliver("a2 f eC s6:3 s1:3 s7:3 s2:3");
  open_number("7 2 6 1", 5, DPR_BIT(1) | DPR_BIT(2) | DPR_BIT(6) | DPR_BIT(7), DPR_BIT(2) | DPR_BIT(7));
  step(DPR_HUB, DPR_BEGIN, 0, "a1 f s6:0 s7:0 s1:0 s2:0");
  timer(DPR_HUB, "eA s7:4 s2:4 s6:4 s1:4");

  /* 1, 4, 5 and 8 presume commit, 2, 3, 6 and 7 abort: both groups start anew at the box of the handover */
  open_number("commit of eight", 4, 255, 0x99);
  only_looked(6);
  step(DPR_HUB, DPR_BEGIN, 0, "a1 f s5:0 s6:0 s7:0 s8:0 s1:0 s2:0 s3:0 s4:0");
  deliver("a5 f s5:1");
  deliver("s6:7");
  deliver("a5 f s7:1");
  deliver("a5 f s8:1");
  deliver("a5 f s1:1");
  deliver("a5 f s2:1");
  deliver("a5 f s3:1");
  deliver("a5 f s4:1");
  deliver_each(7, "");
  deliver("a2 f eC s7:3 s2:3 s3:3 s5:3 s8:3 s1:3 s4:3");
  timer(DPR_HUB, "s7:3 s2:3 s3:3");
  restart_hub("eC s7:3 s2:3 s3:3 s5:3 s8:3 s1:3 s4:3");

  open_number("abort of eight by timer", 6, 255, 0x99);
  step(DPR_HUB, DPR_BEGIN, 0, "a1 f s7:0 s8:0 s1:0 s2:0 s3:0 s4:0 s5:0 s6:0");
  timer(DPR_HUB, "eA s8:4 s1:4 s4:4 s5:4 s7:4 s2:4 s3:4 s6:4");
  timer(DPR_HUB, "s8:4 s1:4 s4:4 s5:4");
  restart_hub("eA s8:4 s1:4 s4:4 s5:4 s7:4 s2:4 s3:4 s6:4");

  open_number("abort of eight by No", 3, 255, 0x99);
  timer(4, "eA");
  step(DPR_HUB, DPR_BEGIN, 0, "a1 f s4:0 s5:0 s6:0 s7:0 s8:0 s1:0 s2:0 s3:0");
  deliver("s4:2");
  deliver_again(8, "eA s5:4 s8:4 s1:4 s6:4 s7:4 s2:4 s3:4");
  timer(DPR_HUB, "s5:4 s8:4 s1:4");
}

int main(void) {
  examples();
  read_only_examples();
  handovers();
  read_only_handovers();
  order();
  printf("firmware in C: %u checks, ok\n", checks);
  return 0;
}
