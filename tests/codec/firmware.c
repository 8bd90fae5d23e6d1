/* The calls of dpr.h as a C firmware makes them: K10 and the examples of document 01's table of refusals, bad records
 * behind sound ones, the largest images, and message numbers. Each answer and all the memory around is compared; the
 * first difference ends the program. */
#include "dpr.h"

#include <stdio.h>
#include <stdlib.h>
#include <string.h>

_Static_assert(DPR_HUB_IMAGE_MAX == 6 + 4 * DPR_HUB_RECORDS_MAX + 8 * (4 + 4 + 2), "8 handovers with records 1 2 3");
_Static_assert(DPR_BOX_IMAGE_MAX == 6 + 4 * DPR_BOX_RECORDS_MAX + 8 * (3 + 2), "8 handovers with records 5 6");
_Static_assert(DPR_IMAGE_MAX >= DPR_HUB_IMAGE_MAX && DPR_IMAGE_MAX >= DPR_BOX_IMAGE_MAX, "the larger one");

enum { GUARD = 32, LARGEST = 2 * DPR_IMAGE_MAX };

static unsigned checks;

static void expect(int ok, const char *name, const char *what, unsigned got) {
  checks++;
  if (!ok) {
    fprintf(stderr, "FAILED: %s: %s, answer %u\n", name, what, got);
    exit(1);
  }
}

/* One copy to a buffer full of EE, with bytes EE on both sides of it. */
static void copy(const char *name, unsigned answer, const uint8_t *image, size_t image_len, size_t buffer_len, size_t offset) {
  static uint8_t memory[GUARD + LARGEST + GUARD], wanted[sizeof memory];
  memset(memory, 0xEE, sizeof memory);
  memset(wanted, 0xEE, sizeof wanted);
  if (answer == DPR_ACCEPTED)
    memcpy(wanted + GUARD + offset, image, image_len);
  unsigned got = dpr_image_copy(image, image_len, memory + GUARD, buffer_len, offset);
  expect(got == answer, name, "wrong answer", got);
  expect(memcmp(memory, wanted, sizeof memory) == 0, name, "wrong bytes in or beside the buffer", got);
}

/* Answer and index of the image, which stays as it is. */
static void check(const char *name, unsigned answer, unsigned index, const uint8_t *image, size_t image_len) {
  static uint8_t memory[GUARD + LARGEST + GUARD], wanted[sizeof memory];
  memset(memory, 0xEE, sizeof memory);
  memcpy(memory + GUARD, image, image_len);
  memcpy(wanted, memory, sizeof memory);
  uint16_t got = dpr_image_check(memory + GUARD, image_len);
  expect(DPR_CHECK_ANSWER(got) == answer, name, "wrong answer of the check", DPR_CHECK_ANSWER(got));
  expect(DPR_CHECK_INDEX(got) == index, name, "wrong index", DPR_CHECK_ANSWER(got));
  expect(memcmp(memory, wanted, sizeof memory) == 0, name, "wrong bytes in or beside the image", DPR_CHECK_ANSWER(got));
}

/* An image that is refused, by the check and by a copy to a buffer of so many bytes. */
static void refused(const char *name, unsigned answer, unsigned index, const uint8_t *image, size_t length,
                    size_t room) {
  check(name, answer, index, image, length);
  copy(name, answer, image, length, room, 0);
}

#define COPY(name, answer, buffer_len, offset, ...)                                   \
  do {                                                                                \
    const uint8_t bytes[] = {0x44, 0x50, 0x52, __VA_ARGS__};                          \
    copy(name, answer, bytes, sizeof bytes, buffer_len, offset);                      \
  } while (0)

#define CHECK(name, answer, index, ...)                                               \
  do {                                                                                \
    const uint8_t bytes[] = {0x44, 0x50, 0x52, __VA_ARGS__};                          \
    check(name, answer, index, bytes, sizeof bytes);                                  \
  } while (0)

#define REFUSED(name, answer, index, room, ...)                                       \
  do {                                                                                \
    const uint8_t bytes[] = {0x44, 0x50, 0x52, __VA_ARGS__};                          \
    refused(name, answer, index, bytes, sizeof bytes, room);                          \
  } while (0)

static void message(unsigned answer, uint16_t number, uint8_t handover, uint8_t box, uint8_t kind) {
  uint8_t memory[5] = {0xEE, 0xEE, 0xEE, 0xEE, 0xEE};
  const uint8_t wanted[5] = {0xEE, handover, box, kind, 0xEE};
  unsigned got = dpr_message_parts(number, memory + 1);
  expect(got == answer, "message number", "wrong answer", got);
  expect(memcmp(memory, wanted, sizeof memory) == 0, "message number", "wrong parts or bytes beside them", got);
}

/* An image in the making: records are added at the end, then the pair table is set before them. */
struct log {
  uint8_t site, count, lengths[32], records[128];
  size_t length;
};

static void add(struct log *log, const uint8_t *record, uint8_t length) {
  memcpy(log->records + log->length, record, length);
  log->length += length;
  log->lengths[log->count++] = length;
}

static size_t image_of(const struct log *log, uint8_t *image) {
  size_t at = 6, offset = 6 + 4 * (size_t)log->count;
  const uint8_t head[6] = {0x44, 0x50, 0x52, 0x4C, log->site, log->count};
  memcpy(image, head, 6);
  for (unsigned i = 0; i < log->count; i++) {
    const uint8_t pair[4] = {(uint8_t)offset, (uint8_t)(offset >> 8), log->lengths[i], 0};
    memcpy(image + at, pair, 4);
    at += 4;
    offset += log->lengths[i];
  }
  memcpy(image + at, log->records, log->length);
  return offset;
}

/* A bad record, behind so many sound ones and before another bad one. */
static void behind(const char *name, unsigned answer, uint8_t site, uint8_t before, const uint8_t *record,
                   uint8_t length) {
  struct log log = {.site = site};
  uint8_t image[LARGEST];
  for (uint8_t handover = 0; handover < before; handover++)
    add(&log, (const uint8_t[]){site == DPR_HUB ? DPR_RECORD_ABORT_END : DPR_RECORD_ABORTED, handover}, 2);
  add(&log, record, length);
  add(&log, (const uint8_t[]){9, 9}, 2);
  refused(name, answer, before, image, image_of(&log, image), DPR_IMAGE_MAX);
}

#define BEHIND(name, answer, site, before, ...) \
  behind(name, answer, site, before, (const uint8_t[]){__VA_ARGS__}, sizeof(const uint8_t[]){__VA_ARGS__})

static void bad_records(void) {
  for (uint8_t before = 0; before <= 8; before++) {
    BEHIND("23, kind at the hub", DPR_REFUSED_RECORD, 0, before, 5, 0, 1);
    BEHIND("23, length at the hub", DPR_REFUSED_RECORD, 0, before, 1, 8, 0);
    BEHIND("23, kind at a box", DPR_REFUSED_RECORD, 1, before, 4, 0);
    BEHIND("23, length at a box", DPR_REFUSED_RECORD, 8, before, 5, 8, 2, 0);
    BEHIND("27 at the hub", DPR_REFUSED_HANDOVER, 0, before, 2, 8, 0, 0);
    BEHIND("27 at a box", DPR_REFUSED_HANDOVER, 1, before, 5, 8, 2);
    BEHIND("28, members 0", DPR_REFUSED_FIELD, 0, before, 2, 7, 0, 0);
    BEHIND("28, presume_commit no part", DPR_REFUSED_FIELD, 0, before, 2, 7, 1, 2);
    BEHIND("28, Init with presume_commit 0", DPR_REFUSED_FIELD, 0, before, 1, 7, 3, 0);
    BEHIND("28, presumption", DPR_REFUSED_FIELD, 8, before, 5, 7, 2);
    if (before > 0) {
      BEHIND("24 at the hub", DPR_REFUSED_SEQUENCE, 0, before, 4, 0);
      BEHIND("24 at a box", DPR_REFUSED_SEQUENCE, 1, before, 5, 0, 1);
    }
  }
}

/* Init of boxes 1, 2 and 3, of which 1 presumes commit; a Commit of some of them; and CommitEnd. */
static void remaining(const char *name, unsigned answer, unsigned index, uint8_t members, uint8_t presume_commit) {
  struct log log = {0};
  uint8_t image[LARGEST];
  add(&log, (const uint8_t[]){DPR_RECORD_INIT, 4, 7, 1}, 4);
  add(&log, (const uint8_t[]){DPR_RECORD_COMMIT, 4, members, presume_commit}, 4);
  add(&log, (const uint8_t[]){DPR_RECORD_COMMIT_END, 4}, 2);
  check(name, answer, index, image, image_of(&log, image));
}

static void some_taken_out(void) {
  remaining("all remain", DPR_ACCEPTED, 3, 7, 1);
  remaining("PrC and PrA remain", DPR_ACCEPTED, 3, 5, 1);
  remaining("PrA remains", DPR_ACCEPTED, 3, 4, 0);
  remaining("PrC remains, and needs no end", DPR_REFUSED_SEQUENCE, 2, 1, 1);
  remaining("a box more", DPR_REFUSED_SEQUENCE, 1, 15, 1);
  remaining("another presumption", DPR_REFUSED_SEQUENCE, 1, 5, 0);
  remaining("another presumption", DPR_REFUSED_SEQUENCE, 1, 6, 2);
  remaining("nobody remains", DPR_REFUSED_FIELD, 1, 0, 0);
}

static void largest(void) {
  struct log hub = {0}, box = {.site = 8};
  uint8_t image[LARGEST];
  for (uint8_t handover = 0; handover < 8; handover++) {
    add(&hub, (const uint8_t[]){1, handover, 0xFF, 0x01}, 4);
    add(&hub, (const uint8_t[]){2, handover, 0xFF, 0x01}, 4);
    add(&hub, (const uint8_t[]){3, handover}, 2);
    add(&box, (const uint8_t[]){5, handover, 1}, 3);
    add(&box, (const uint8_t[]){6, handover}, 2);
  }
  size_t length = image_of(&hub, image);
  expect(hub.count == DPR_HUB_RECORDS_MAX && length == DPR_HUB_IMAGE_MAX, "largest of the hub", "wrong length", 0);
  check("largest of the hub", DPR_ACCEPTED, DPR_HUB_RECORDS_MAX, image, length);
  copy("largest of the hub", DPR_ACCEPTED, image, length, DPR_IMAGE_MAX, 0);
  copy("largest of the hub", DPR_ACCEPTED, image, length, DPR_IMAGE_MAX + 9, 9);
  copy("largest of the hub", DPR_REFUSED_BUFFER, image, length, DPR_IMAGE_MAX, 1);
  copy("largest of the hub", DPR_REFUSED_BUFFER, image, length, DPR_IMAGE_MAX - 1, 0);
  image[length - 1] = 8;
  refused("last record of the hub", DPR_REFUSED_HANDOVER, DPR_HUB_RECORDS_MAX - 1, image, length, DPR_IMAGE_MAX);
  add(&hub, (const uint8_t[]){4, 0}, 2);
  refused("a record more", DPR_REFUSED_SITE, 0, image, image_of(&hub, image), DPR_IMAGE_MAX);
  length = image_of(&box, image);
  expect(box.count == DPR_BOX_RECORDS_MAX && length == DPR_BOX_IMAGE_MAX, "largest of a box", "wrong length", 0);
  check("largest of a box", DPR_ACCEPTED, DPR_BOX_RECORDS_MAX, image, length);
  copy("largest of a box", DPR_ACCEPTED, image, length, DPR_IMAGE_MAX, DPR_IMAGE_MAX - length);
  image[length - 1] = 0;
  refused("last record of a box", DPR_REFUSED_SEQUENCE, DPR_BOX_RECORDS_MAX - 1, image, length, DPR_IMAGE_MAX);
  add(&box, (const uint8_t[]){7, 0}, 2);
  refused("a record more", DPR_REFUSED_SITE, 0, image, image_of(&box, image), DPR_IMAGE_MAX);
}

int main(void) {
  CHECK("K10", DPR_ACCEPTED, 1, 0x4C, 1, 1, 0x0A, 0, 3, 0, 5, 0, 1);
  COPY("K10", DPR_ACCEPTED, 13, 0, 0x4C, 1, 1, 0x0A, 0, 3, 0, 5, 0, 1);
  COPY("K10 at an offset", DPR_ACCEPTED, 40, 20, 0x4C, 1, 1, 0x0A, 0, 3, 0, 5, 0, 1);
  COPY("K10, no room", DPR_REFUSED_BUFFER, 40, 28, 0x4C, 1, 1, 0x0A, 0, 3, 0, 5, 0, 1);
  COPY("K10, offset at the end", DPR_REFUSED_BUFFER, 40, 40, 0x4C, 1, 1, 0x0A, 0, 3, 0, 5, 0, 1);
  COPY("K10, offset beyond the end", DPR_REFUSED_BUFFER, 40, SIZE_MAX, 0x4C, 1, 1, 0x0A, 0, 3, 0, 5, 0, 1);
  COPY("K10, offset that would wrap", DPR_REFUSED_BUFFER, 40, SIZE_MAX - 12, 0x4C, 1, 1, 0x0A, 0, 3, 0, 5, 0, 1);
  COPY("K10, buffer of no bytes", DPR_REFUSED_BUFFER, 0, 0, 0x4C, 1, 1, 0x0A, 0, 3, 0, 5, 0, 1);

  /* the table of refusals, each with room and without; 01's example of 23, 05 00 02, is one of 28 */
  const uint8_t opening[] = {0x44, 0x50, 0x52};
  for (size_t room = 0; room <= 64; room += 64) {
    refused("20", DPR_REFUSED_OPENING, 0, opening, sizeof opening, room);
    refused("20, no bytes", DPR_REFUSED_OPENING, 0, opening, 0, room);
    REFUSED("20, wrong opening", DPR_REFUSED_OPENING, 0, room, 0x4D, 9, 0);
    REFUSED("21", DPR_REFUSED_SITE, 0, room, 0x4C, 9, 0);
    REFUSED("21, count", DPR_REFUSED_SITE, 0, room, 0x4C, 1, 17);
    REFUSED("22", DPR_REFUSED_TABLE, 0, room, 0x4C, 1, 1, 0x0B, 0, 3, 0, 5, 0, 1);
    REFUSED("22, second offset", DPR_REFUSED_TABLE, 0, room, 0x4C, 1, 2, 0x0E, 0, 3, 0, 0x12, 0, 2, 0, 5, 0, 1, 6, 0);
    REFUSED("23", DPR_REFUSED_RECORD, 0, room, 0x4C, 1, 1, 0x0A, 0, 2, 0, 5, 0);
    REFUSED("27", DPR_REFUSED_HANDOVER, 0, room, 0x4C, 1, 1, 0x0A, 0, 3, 0, 5, 8, 2);
    REFUSED("28", DPR_REFUSED_FIELD, 0, room, 0x4C, 1, 1, 0x0A, 0, 3, 0, 5, 0, 2);
    REFUSED("24", DPR_REFUSED_SEQUENCE, 1, room, 0x4C, 1, 2, 0x0E, 0, 3, 0, 0x11, 0, 3, 0, 5, 0, 0, 5, 0, 0);
  }
  for (uint8_t site = 0; site <= 8; site++) {
    CHECK("empty log", DPR_ACCEPTED, 0, 0x4C, site, 0);
    COPY("25", DPR_REFUSED_BUFFER, 5, 0, 0x4C, site, 0);
    COPY("empty log", DPR_ACCEPTED, DPR_IMAGE_MIN, 0, 0x4C, site, 0);
    COPY("empty log at offset 1 of 8", DPR_ACCEPTED, 8, 1, 0x4C, site, 0);
  }
  bad_records();
  some_taken_out();
  largest();

  message(DPR_ACCEPTED, 0, 0, 1, 0);
  message(DPR_ACCEPTED, 1, 0, 1, 1);
  message(DPR_ACCEPTED, 7, 0, 2, 0);
  message(DPR_ACCEPTED, 56, 1, 1, 0);
  message(DPR_ACCEPTED, 56 * 5 + 7 * (3 - 1) + 4, 5, 3, 4);
  message(DPR_ACCEPTED, 447, 7, 8, DPR_ABORT_ACK);
  message(DPR_ACCEPTED, 0x01C0, 0, 1, DPR_READ_ONLY); /* 01's example of 26, before Job 3 */
  message(DPR_ACCEPTED, 448 + 8 * 5 + (3 - 1), 5, 3, DPR_READ_ONLY);
  message(DPR_ACCEPTED, DPR_MESSAGES - 1, 7, 8, DPR_READ_ONLY);
  message(DPR_REFUSED_MESSAGE, DPR_MESSAGES, 0xEE, 0xEE, 0xEE);
  message(DPR_REFUSED_MESSAGE, 0x0200, 0xEE, 0xEE, 0xEE);
  message(DPR_REFUSED_MESSAGE, 65535, 0xEE, 0xEE, 0xEE);

  printf("firmware in C: %u checks, ok\n", checks);
  return 0;
}
