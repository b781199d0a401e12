/* Runs the library on the conformance vectors of standard input, whose format tests/agent/README.md has.
 * With the argument `kinds` it shows instead that zeros are of an Unknown server, that kinds out of range are SM_BAD and change nothing, and that a settle is
 * taken as a whole.
 * With `time` it measures one call. */
#define _POSIX_C_SOURCE 199309L
#include <inttypes.h>
#include <stdio.h>
#include <stdlib.h>
#include <string.h>
#include <time.h>

#include "sm_agent.h"

/* The numbers of a line, in front of its sign and behind it. */
enum { MOST = 64, MOST_SHARDS = 4, MOST_COPIES = 4 };
static uint64_t given[MOST], wanted[MOST], made[MOST];
static int given_count, wanted_count, made_count, taken;

static void fail(const char *why, const char *line) {
  fprintf(stderr, "%s: %s\n", why, line);
  exit(1);
}

static uint64_t take(void) { return taken < given_count ? given[taken++] : 0; }
static void give(uint64_t number) { made[made_count++] = number; }

static sm_base take_base(void) {
  sm_base base = {0};
  base.journal = take(), base.number = take(), base.nonce = take(), base.known = (uint32_t)take(), base.fenced = (uint32_t)take();
  return base;
}
static void give_base(const sm_base *base) {
  give(base->journal), give(base->number), give(base->nonce), give(base->known), give(base->fenced);
}
static sm_slot take_slot(void) {
  sm_slot slot = {0};
  slot.cell = (uint32_t)take(), slot.party = (uint32_t)take(), slot.handover = take(), slot.last = take();
  slot.at_work = take(), slot.load = take(), slot.cut = take(), slot.has_cut = (uint32_t)take();
  return slot;
}
static void give_slot(const sm_slot *slot) {
  give(slot->cell), give(slot->party), give(slot->handover), give(slot->last);
  give(slot->at_work), give(slot->load), give(slot->cut), give(slot->has_cut);
}
static sm_order take_order(void) {
  sm_order order = {0};
  order.journal = take(), order.fence = take(), order.number = take(), order.load = take(), order.room = take(), order.handover = take();
  order.call = (uint32_t)take(), order.role = (uint32_t)take(), order.new_role = (uint32_t)take(), order.party = (uint32_t)take();
  return order;
}
static sm_request take_request(void) {
  sm_request request = {0};
  request.handover = take(), request.cut = take(), request.party = (uint32_t)take(), request.is_passed = (uint32_t)take();
  return request;
}
static sm_reopening take_reopening(void) {
  sm_reopening reopening = {0};
  reopening.journal = take(), reopening.number = take();
  return reopening;
}

/* Makes the call of a line. */
static void call_orders(const char *name) {
  sm_base base;
  sm_slot slot;
  sm_order order;
  uint64_t number;
  if (!strcmp(name, "judge")) {
    base = take_base(), slot = take_slot(), number = take(), order = take_order();
    give(sm_judge(&base, &slot, number, &order));
  } else if (!strcmp(name, "commit")) {
    base = take_base(), slot = take_slot(), order = take_order(), number = take();
    uint32_t answer = sm_commit(&base, &slot, &order, number);
    give(answer);
    if (answer == SM_DONE) give_slot(&slot);
  } else if (!strcmp(name, "begin")) {
    slot = take_slot(), order = take_order();
    if (sm_begin(&slot, &order) == SM_DONE) give_slot(&slot);
  }
}
static void call_slots(const char *name) {
  sm_base base;
  sm_slot slot;
  uint64_t handover, number;
  if (!strcmp(name, "abandon")) {
    slot = take_slot();
    if (sm_abandon(&slot) == SM_DONE) give_slot(&slot);
  } else if (!strcmp(name, "seal")) {
    slot = take_slot(), handover = take(), number = take();
    if (sm_seal(&slot, handover, number) == SM_DONE) give_slot(&slot);
  } else if (!strcmp(name, "may_delete")) {
    base = take_base(), slot = take_slot();
    give(sm_may_delete(&base, &slot));
  } else if (!strcmp(name, "has_reached_cut")) {
    slot = take_slot(), number = take();
    give(sm_has_reached_cut(&slot, number));
  }
}
static void call_route(void) {
  sm_base base = take_base();
  sm_slot slot = take_slot();
  uint64_t applied = take();
  sm_request request = take_request(), onward = {0};
  give(sm_route(&base, &slot, applied, &request, &onward));
  give(onward.handover), give(onward.cut), give(onward.party), give(onward.is_passed);
}
static void call_take(void) {
  sm_base base = take_base();
  sm_assignment assignment = {0};
  sm_shard shards[MOST_SHARDS] = {{{0}, {0}}};
  assignment.kind = (uint32_t)take(), assignment.journal = take(), assignment.fence = take(), assignment.number = take();
  assignment.has_nonce = (uint32_t)take(), assignment.nonce = take();
  size_t count = (size_t)take();
  for (size_t i = 0; i < count && i < MOST_SHARDS; i++) {
    sm_slot *brought = &shards[i].brought;
    shards[i].slot = take_slot();
    brought->cell = (uint32_t)take(), brought->party = (uint32_t)take(), brought->handover = take(), brought->load = take();
    assignment.slots += brought->cell != SM_UNKNOWN;
  }
  give(sm_take(&base, &assignment, shards, count)), give_base(&base);
  for (size_t i = 0; i < count && i < MOST_SHARDS; i++) give_slot(&shards[i].slot);
}
static void call_messages(const char *name) {
  sm_base base = take_base();
  sm_reopening reopening;
  uint64_t number;
  if (!strcmp(name, "fence")) {
    reopening = take_reopening(), number = take();
    give(sm_fence(&base, &reopening, number)), give_base(&base);
  } else if (!strcmp(name, "heed")) {
    reopening = take_reopening(), number = take();
    sm_heed(&base, &reopening, number), give_base(&base);
  } else if (!strcmp(name, "publish")) {
    sm_publication publication = {0};
    number = take();
    publication.journal = take(), publication.fence = take(), publication.version = take();
    give(sm_publish(&base, number, &publication));
  }
}

static sm_copy take_copy(void) {
  sm_copy copy = {0};
  copy.view = take(), copy.position = take();
  return copy;
}
/* Takes copies that were told, or a list's views, each behind their count. */
static size_t take_copies(sm_copy *copies) {
  size_t count = (size_t)take();
  for (size_t i = 0; i < count && i < MOST_COPIES; i++) copies[i] = take_copy();
  return count;
}
static size_t take_views(sm_view *views) {
  size_t count = (size_t)take();
  for (size_t i = 0; i < count && i < MOST_COPIES; i++) views[i].view = take(), views[i].position = take();
  return count;
}
static void call_copies(const char *name) {
  sm_copy one, others[MOST_COPIES] = {{0, 0}};
  sm_view views[MOST_COPIES] = {{0, 0}};
  uint64_t copies, number;
  size_t count;
  if (!strcmp(name, "compare")) {
    one = take_copy(), others[0] = take_copy();
    give(sm_compare(&one, others));
  } else if (!strcmp(name, "resumes")) {
    one = take_copy(), count = take_views(views), number = take();
    give(sm_resumes(&one, views, count, number));
  } else if (!strcmp(name, "copied")) {
    copies = take(), one = take_copy(), count = take_copies(others), number = take();
    give(sm_copied(copies, &one, others, count, number));
  } else if (!strcmp(name, "acknowledged")) {
    copies = take(), one = take_copy(), count = take_copies(others);
    give(sm_acknowledged(copies, &one, others, count));
  }
}

/* Reads a line of words into numbers. */
static const char *read_line(char *line) {
  const char *name = strtok(line, " \n");
  int behind = 0;
  given_count = wanted_count = made_count = taken = 0;
  for (char *word; (word = strtok(NULL, " \n"));) {
    if (!strcmp(word, "=")) {
      behind = 1;
    } else if (given_count < MOST && wanted_count < MOST) {
      uint64_t number = strtoull(word, NULL, 10);
      if (behind) wanted[wanted_count++] = number;
      else given[given_count++] = number;
    }
  }
  return name ? name : "";
}

static int run_vectors(void) {
  static const char *const messages[] = {"fence", "heed", "publish"};
  char line[1024], copy[1024];
  long count = 0;
  while (fgets(line, sizeof line, stdin)) {
    memcpy(copy, line, sizeof line);
    const char *name = read_line(line);
    int is_message = 0;
    for (size_t i = 0; i < sizeof messages / sizeof *messages; i++) is_message |= !strcmp(name, messages[i]);
    if (is_message) call_messages(name);
    else if (!strcmp(name, "route")) call_route();
    else if (!strcmp(name, "take")) call_take();
    else call_orders(name), call_slots(name), call_copies(name);
    if (!made_count || made_count != wanted_count || memcmp(made, wanted, sizeof *made * (size_t)made_count)) fail("another answer", copy);
    if (taken != given_count) fail("another number of words", copy);
    count++;
  }
  printf("%ld vectors\n", count);
  return count ? 0 : 1;
}

/* ---- zeros, and kinds out of range ---- */

#define WANT(fact) ((fact) ? (void)0 : fail("not so", #fact))

static void want_zeros(void) {
  sm_base base = {0}, known = {.journal = 1, .known = 1};
  sm_slot slot = {0}, zeros = {0};
  sm_order order = {.journal = 1, .number = 5, .room = 9, .call = SM_ADD, .role = SM_AS_PRIMARY};
  sm_request direct = {0}, onward = {0};
  sm_reopening reopening = {0};
  sm_publication publication = {0};
  sm_assignment restore = {.kind = SM_RESTORE, .journal = 1, .number = 3, .slots = 1, .has_nonce = 1}, nothing = {0};
  sm_shard shards[2] = {{.slot = {0}, .brought = {.cell = SM_PRIMARY, .load = 4}}, {{0}, {0}}};
  WANT(sm_judge(&base, &slot, 0, &order) == SM_NOT_READY && sm_judge(&known, &slot, 0, &order) == SM_NOT_READY);
  WANT(sm_commit(&known, &slot, &order, 0) == SM_NOT_READY && sm_route(&known, &slot, 0, &direct, &onward) == SM_NOT_HERE);
  WANT(sm_begin(&slot, &order) == SM_NOT_READY && sm_abandon(&slot) == SM_NOT_READY && sm_seal(&slot, 1, 1) == SM_NOT_READY);
  WANT(!memcmp(&slot, &zeros, sizeof slot));
  WANT(sm_fence(&base, &reopening, 0) == SM_IGNORED && sm_heed(&base, &reopening, 0) == SM_IGNORED && sm_publish(&base, 0, &publication) == SM_NOT_READY);
  WANT(sm_has_reached_cut(&slot, 0) == SM_NOT_READY && sm_may_delete(&base, &slot) == SM_NOT_READY && !memcmp(&base, &(sm_base){0}, sizeof base));
  WANT(sm_take(&base, &nothing, shards, 2) == SM_BAD && sm_take(&base, &restore, shards, 2) == SM_IGNORED && shards[0].slot.cell == SM_UNKNOWN);
  sm_forget(&base, 77), restore.nonce = 77;
  WANT(sm_take(&base, &restore, shards, 2) == SM_TAKEN && base.known == 1 && base.number == 3);
  WANT(sm_route(&base, &shards[0].slot, 0, &direct, &onward) == SM_EXECUTE && shards[0].slot.load == 4 && shards[1].slot.cell == SM_ABSENT);
  sm_vacant(&slot);
  WANT(slot.cell == SM_ABSENT && sm_judge(&base, &slot, 0, &order) == SM_BEGIN && sm_may_delete(&base, &slot) == SM_DONE);
}

static void want_bad(void) {
  static const uint32_t flags[] = {2, 3, 1u << 31, UINT32_MAX};
  for (size_t i = 0; i < sizeof flags / sizeof *flags; i++) {
    sm_base base = {.journal = 1, .known = flags[i]}, fenced = {.known = 1, .fenced = flags[i]}, good = {.journal = 1, .known = 1};
    sm_slot slot = {.cell = 4 + flags[i]}, cut = {.cell = SM_PRIMARY, .has_cut = flags[i]}, known = {.cell = SM_ABSENT}, was = slot;
    sm_order order = {.journal = 1, .number = 5, .call = SM_DROP}, call = {.call = 4 + flags[i]}, role = {.call = SM_ADD, .role = 1 + flags[i]};
    sm_request direct = {0}, flagged = {.is_passed = flags[i]}, onward = {0};
    sm_reopening reopening = {1, 9};
    sm_assignment flag = {.kind = SM_SETTLE, .has_nonce = flags[i]}, kind = {.kind = 1 + flags[i]}, settle = {.kind = SM_SETTLE, .journal = 1, .slots = 1};
    sm_base stands = {.journal = 1, .known = 1, .fenced = 1}, stood = stands;
    sm_shard one = {.slot = {.cell = SM_PRIMARY}, .brought = {.cell = SM_PRIMARY}}, bad = one, brings = one, cuts = one;
    sm_publication publication = {1, 0, 7};
    if (slot.cell <= SM_FORWARDING) slot.cell = was.cell = 6;
    if (call.call <= SM_PREPARE_DROP) call.call = 0;
    if (role.role <= 2) role.role = 0;
    WANT(!sm_judge(&base, &known, 0, &order) && !sm_judge(&good, &slot, 0, &order) && !sm_judge(&good, &cut, 0, &order));
    WANT(!sm_judge(&good, &known, 0, &call) && !sm_judge(&good, &known, 0, &role) && !sm_judge(&fenced, &known, 0, &order));
    WANT(!sm_commit(&good, &slot, &order, 0) && !sm_begin(&slot, &order) && !sm_begin(&known, &call) && !sm_abandon(&slot));
    WANT(!sm_seal(&slot, 0, 0) && !sm_has_reached_cut(&slot, 0));
    WANT(!sm_may_delete(&good, &slot) && !sm_may_delete(&base, &known) && !memcmp(&slot, &was, sizeof slot));
    WANT(!sm_route(&good, &slot, 0, &direct, &onward) && !sm_route(&good, &known, 0, &flagged, &onward));
    bad.slot = brings.brought = slot, cuts.slot = cut;
    WANT(!sm_fence(&base, &reopening, 1) && !sm_take(&fenced, &settle, &one, 1) && !sm_take(&stands, &flag, &one, 1) && !sm_take(&stands, &kind, &one, 1));
    WANT(!sm_take(&stands, &settle, &bad, 1) && !sm_take(&stands, &settle, &brings, 1) && !sm_take(&stands, &settle, &cuts, 1));
    WANT(!memcmp(&stands, &stood, sizeof stands) && one.slot.cell == SM_PRIMARY && !memcmp(&bad.slot, &slot, sizeof slot));
    WANT(!sm_heed(&base, &reopening, 1) && !sm_publish(&base, 0, &publication) && base.known == flags[i]);
  }
}

/* A settle is taken as a whole: nothing of one that is not given whole, and what it does not bring is absent. */
static void want_whole(void) {
  sm_base base = {.journal = 1, .number = 7, .known = 1, .fenced = 1}, was = base;
  sm_assignment settle = {.kind = SM_SETTLE, .journal = 1, .number = 7, .slots = 2};
  sm_request late = {.handover = 3, .party = 2, .is_passed = 1}, onward = {0};
  sm_shard shards[3] = {
    {.slot = {.cell = SM_PREPARED, .party = 2, .handover = 3, .last = 5, .at_work = 6, .load = 4}, .brought = {0}},
    {.slot = {.cell = SM_SECONDARY, .last = 4, .load = 2}, .brought = {.cell = SM_PRIMARY, .load = 3, .last = 9, .at_work = 9, .cut = 9, .has_cut = 1}},
    {.slot = {0}, .brought = {.cell = SM_ABSENT, .load = 3}},
  }, before[3];
  memcpy(before, shards, sizeof shards);
  WANT(sm_take(&base, &settle, shards, 2) == SM_INCOMPLETE && sm_take(&base, &settle, shards + 1, 1) == SM_INCOMPLETE);
  settle.slots = 1;
  WANT(sm_take(&base, &settle, shards, 3) == SM_INCOMPLETE && !memcmp(&base, &was, sizeof base) && !memcmp(before, shards, sizeof shards));
  settle.slots = 2;
  WANT(sm_take(&base, &settle, shards, 3) == SM_TAKEN && base.fenced == 0 && base.number == 7);
  WANT(shards[0].slot.cell == SM_ABSENT && shards[0].slot.last == 5 && shards[0].slot.at_work == 0 && shards[0].slot.load == 0);
  WANT(sm_route(&base, &shards[0].slot, 9, &late, &onward) == SM_NOT_HERE);
  WANT(shards[1].slot.cell == SM_PRIMARY && shards[1].slot.last == 4 && shards[1].slot.load == 3 && !shards[1].slot.at_work && !shards[1].slot.has_cut);
  WANT(shards[2].slot.cell == SM_ABSENT && shards[2].slot.last == 0 && shards[2].slot.load == 0);
  memcpy(before, shards, sizeof shards);
  shards[1].slot.cell = before[1].slot.cell = SM_SECONDARY;
  WANT(sm_take(&base, &settle, shards, 3) == SM_AGAIN && sm_take(&base, &settle, shards, 0) == SM_AGAIN && !memcmp(before, shards, sizeof shards));
}

/* The processor's time, in nanoseconds. */
static double now(void) {
  struct timespec time;
  clock_gettime(CLOCK_PROCESS_CPUTIME_ID, &time);
  return (double)time.tv_sec * 1e9 + (double)time.tv_nsec;
}

/* How long a call takes, by the fastest of many runs. What goes in changes, so that no call is left out. */
static int measure(void) {
  enum { CALLS = 200000, RUNS = 100 };
  sm_base base = {.journal = 1, .known = 1};
  sm_slot slot = {.cell = SM_PRIMARY, .last = 3, .load = 2};
  sm_order order = {.journal = 1, .number = 5, .load = 2, .room = 9, .call = SM_PREPARE_DROP, .party = 2, .handover = 1};
  sm_request direct = {0}, onward = {0};
  uint64_t sum = 0;
  double judge = 1e9, route = 1e9;
  for (int run = 0; run < RUNS; run++) {
    double begin = now();
    for (int i = 0; i < CALLS; i++) order.number = 4 + (uint64_t)(i & 7), sum += sm_judge(&base, &slot, 2, &order);
    double middle = now();
    for (int i = 0; i < CALLS; i++) slot.at_work = (uint64_t)(i & 1), sum += sm_route(&base, &slot, 0, &direct, &onward);
    double end = now();
    if (middle - begin < judge) judge = middle - begin;
    if (end - middle < route) route = end - middle;
  }
  printf("C: judge %.1f ns a call, route %.1f ns a call (sum %" PRIu64 ")\n", judge / CALLS, route / CALLS, sum);
  return judge / CALLS < 20 && route / CALLS < 20 ? 0 : 1;
}

int main(int count, char **words) {
  if (count == 2 && !strcmp(words[1], "time")) return measure();
  if (count == 2 && !strcmp(words[1], "kinds")) {
    want_zeros(), want_bad(), want_whole(), puts("zeros and kinds as they should be");
    return 0;
  }
  return run_vectors();
}
