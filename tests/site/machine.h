/* A hub and its boxes with one handover, for firmware.c. They know of the protocol what dpr.h says: they act on the number
 * of each step, and restart the hub by its log. Effects, logs, outcomes and messages are compared. */
#include "dpr.h"

#include <stdio.h>
#include <stdlib.h>
#include <string.h>

static unsigned checks;

static void expect(int ok, const char *name, const char *what, const char *wanted, const char *got) {
  checks++;
  if (!ok) {
    fprintf(stderr, "FAILED: %s: %s\n  expected %s\n  got      %s\n", name, what, wanted, got);
    exit(1);
  }
}

static void same_text(const char *name, const char *what, const char *wanted, const char *got) {
  expect(strcmp(wanted, got) == 0, name, what, wanted, got);
}

/* What is in a step, through the macros of dpr.h. */
static void show(uint64_t step, char *text, size_t size) {
  snprintf(text, size, "%u %u %u %u %u %u %u %u %u %u", DPR_STEP_ANSWER(step), DPR_STEP_PHASE(step), DPR_STEP_WAITING(step),
           DPR_STEP_TAKEN_OUT(step), DPR_STEP_FIRST_RECORD(step), DPR_STEP_LAST_RECORD(step), DPR_STEP_FORCED(step),
           DPR_STEP_OUTCOME(step), DPR_STEP_MESSAGE(step), DPR_STEP_BOXES(step));
}

/* Each log is the bytes of its records, with the length of the stable part. */
enum { BOXES = 8, BYTES = 32, MESSAGES = 64 };

struct site {
  uint8_t phase, waiting, taken_out, mark, log[BYTES];
  size_t length, stable;
  char entered[8];
};

static struct {
  const char *name;
  uint8_t handover, members, presume_commit; /* as the hub passes them */
  struct site sites[1 + BOXES];
  struct { uint8_t box, kind; } sent[MESSAGES];
  unsigned sends, delivered;
  char trace[128]; /* the effects of the last step, in the order in which they happened */
} run;

static void open_number(const char *name, uint8_t handover, uint8_t members, uint8_t presume_commit) {
  memset(&run, 0, sizeof run);
  run.name = name;
  run.handover = handover;
  run.members = members;
  run.presume_commit = presume_commit;
  run.sites[DPR_HUB].phase = DPR_HUB_OPEN;
  for (uint8_t box = 1; box <= BOXES; box++)
    run.sites[box].phase = members & DPR_BIT(box) ? DPR_BOX_WORKING : DPR_BOX_UNKNOWN;
}

/* Any handover; of 5 box 1 comes before box 2. */
static void open_handover(const char *name, uint8_t members, uint8_t presume_commit) { open_number(name, 5, members, presume_commit); }

static void only_looked(uint8_t box) { run.sites[box].mark = 1; }

static uint8_t presumption(uint8_t box) {
  return run.presume_commit & DPR_BIT(box) ? DPR_PRESUME_COMMIT : DPR_PRESUME_ABORT;
}

static void trace(const char *format, unsigned a, unsigned b) {
  size_t at = strlen(run.trace);
  snprintf(run.trace + at, sizeof run.trace - at, format, at ? " " : "", a, b);
}

static void append(struct site *site, uint8_t kind, uint8_t box, uint8_t taken_out) {
  uint8_t *at = site->log + site->length;
  if (!kind)
    return;
  at[0] = kind;
  at[1] = run.handover;
  site->length += 2;
  if (kind == DPR_RECORD_INIT || kind == DPR_RECORD_COMMIT) {
    uint8_t without = kind == DPR_RECORD_COMMIT ? taken_out : 0;
    at[2] = run.members & (uint8_t)~without;
    at[3] = run.presume_commit & (uint8_t)~without;
    site->length += 2;
  } else if (kind == DPR_RECORD_PREPARED) {
    at[2] = presumption(box);
    site->length += 1;
  }
  trace("%sa%u", kind, 0);
}

static void enter(struct site *site, uint8_t outcome) {
  if (outcome == DPR_OUTCOME_NONE)
    return;
  strcat(site->entered, outcome == DPR_OUTCOME_COMMIT ? "C" : "A");
  trace(outcome == DPR_OUTCOME_COMMIT ? "%seC" : "%seA", 0, 0);
}

static void send_to(uint8_t kind, uint8_t box) {
  expect(run.members & DPR_BIT(box) && run.sends < MESSAGES, run.name, "a message to no member", "", "");
  run.sent[run.sends].box = box;
  run.sent[run.sends++].kind = kind;
  trace("%ss%u:%u", box, kind);
}

/* One by one: from box handover + 1 up to 8, then from 1 up to handover. */
static void send_each(uint8_t kind, uint8_t boxes) {
  for (uint8_t box = run.handover + 1; box <= BOXES; box++)
    if (boxes & DPR_BIT(box))
      send_to(kind, box);
  for (uint8_t box = 1; box <= run.handover; box++)
    if (boxes & DPR_BIT(box))
      send_to(kind, box);
}

/* First those that owe an ack. */
static void send(uint8_t kind, uint8_t boxes) {
  uint8_t owing = kind == DPR_COMMIT ? (uint8_t)~run.presume_commit : kind == DPR_ABORT ? run.presume_commit : 0;
  send_each(kind, boxes & owing);
  send_each(kind, boxes & (uint8_t)~owing);
}

static void act(uint8_t number, uint8_t box, uint64_t step) {
  struct site *site = &run.sites[number];
  run.trace[0] = 0;
  append(site, DPR_STEP_FIRST_RECORD(step), box, DPR_STEP_TAKEN_OUT(step));
  if (DPR_STEP_FORCED(step)) {
    site->stable = site->length;
    trace("%sf", 0, 0);
  }
  enter(site, DPR_STEP_OUTCOME(step));
  send(DPR_STEP_MESSAGE(step), DPR_STEP_BOXES(step));
  append(site, DPR_STEP_LAST_RECORD(step), box, DPR_STEP_TAKEN_OUT(step));
  site->phase = DPR_STEP_PHASE(step);
  site->waiting = DPR_STEP_WAITING(step);
  site->taken_out = DPR_STEP_TAKEN_OUT(step);
}

static uint64_t call(uint8_t site, uint8_t kind, uint8_t box) {
  const struct site *s = &run.sites[site];
  return dpr_site_step(site, kind, run.handover, box, box ? presumption(box) : 0, s->phase, s->waiting, run.members,
                       run.presume_commit, s->mark, s->taken_out);
}

/* The step of a site on a kind; `effects` are those that have to happen. */
static void step(uint8_t site, uint8_t kind, uint8_t box, const char *effects) {
  uint64_t number = call(site, kind, box);
  char text[64];
  show(number, text, sizeof text);
  expect(DPR_STEP_ANSWER(number) == DPR_ACCEPTED, run.name, "refused", "answer 0", text);
  expect(DPR_STEP_BOXES(number) || !DPR_STEP_MESSAGE(number), run.name, "a message to nobody", "kind 0", text);
  act(site, box, number);
  same_text(run.name, "effects", effects, run.trace);
}

/* The next message that was sent, or an earlier one again. */
static void deliver_again(unsigned i, const char *effects) {
  expect(i < run.sends, run.name, "no such message", "", "");
  uint8_t kind = run.sent[i].kind, box = run.sent[i].box;
  int to_box = kind == DPR_PREPARE || kind == DPR_COMMIT || kind == DPR_ABORT;
  step(to_box ? box : DPR_HUB, kind, box, effects);
}

static void deliver(const char *effects) { deliver_again(run.delivered++, effects); }

/* A late message to the hub of a box that it knows no more. */
static void dropped(unsigned i) {
  uint64_t number = call(DPR_HUB, run.sent[i].kind, run.sent[i].box);
  char text[64];
  show(number, text, sizeof text);
  expect(number == DPR_REFUSED_ARGUMENT, run.name, "not dropped", "1 and nothing else", text);
}

static void timer(uint8_t site, const char *effects) { step(site, DPR_TIMER, site, effects); }

/* The hub loses power and restarts, by the rules of dpr.h. */
static void restart_hub(const char *effects) {
  struct site *hub = &run.sites[DPR_HUB];
  uint8_t *record[5] = {0};
  hub->length = hub->stable;
  hub->phase = DPR_HUB_UNKNOWN;
  hub->waiting = hub->taken_out = 0;
  run.trace[0] = 0;
  for (size_t i = 0; i < hub->length; i += hub->log[i] <= DPR_RECORD_COMMIT ? 4 : 2)
    record[hub->log[i]] = hub->log + i;
  uint8_t *commit = record[DPR_RECORD_COMMIT_END] ? NULL : record[DPR_RECORD_COMMIT];
  uint8_t *init = record[DPR_RECORD_COMMIT] || record[DPR_RECORD_ABORT_END] ? NULL : record[DPR_RECORD_INIT];
  const uint8_t *from = commit ? commit : init;
  if (from) {
    run.members = from[2];
    run.presume_commit = from[3];
    enter(hub, commit ? DPR_OUTCOME_COMMIT : DPR_OUTCOME_ABORT);
    hub->waiting = commit ? run.members & (uint8_t)~run.presume_commit : run.presume_commit;
    if (hub->waiting) {
      send(commit ? DPR_COMMIT : DPR_ABORT, run.members);
      hub->phase = commit ? DPR_HUB_COMMITTING : DPR_HUB_ABORTING;
    }
  }
  same_text(run.name, "effects of the restart", effects, run.trace);
}

/* Phase, sets, entries and log of a site; a bar stands behind the stable part. */
static void after(uint8_t number, const char *wanted) {
  const struct site *site = &run.sites[number];
  char got[160];
  int at = snprintf(got, sizeof got, "%u %u %u %s:", site->phase, site->waiting, site->taken_out, site->entered);
  for (size_t i = 0; i <= site->length; i++) {
    if (i == site->stable)
      at += snprintf(got + at, sizeof got - (size_t)at, " |");
    if (i < site->length)
      at += snprintf(got + at, sizeof got - (size_t)at, " %u", site->log[i]);
  }
  same_text(run.name, "phase, waiting, taken out, entries, log", wanted, got);
}

static void all_delivered(void) { expect(run.delivered == run.sends, run.name, "a message is left", "", ""); }
