/* A lock library's retry policy over the model. Thread 0 elides a lock: it
 * runs its section as a transaction, and where that fails it reads the cause
 * and tries again or takes the lock. Thread 1 gets in its way.
 *
 * The host plays the branches of thread 0's program: it looks at the state
 * where the program would look at CR0 behind its tbegin. */
#include <stdlib.h>

#include "naszeptan_words.h"

enum {
  LOCK = 0,    /* a doubleword of its own line */
  DATA = 16,   /* what the lock guards */
  TRIES = 3,   /* transactions before the lock is taken */
  HELD = 0x0A, /* the library's own code: someone has the lock; it passes */
  WIDE = 33    /* lines of a section that is too wide, docs/RULES.md, A1 */
};

/* What thread 1 and the section do to one attempt to elide. */
struct scene {
  const char *name;
  int held;    /* thread 1 has the lock at first */
  int strikes; /* in so many tries thread 1 stores to the data meanwhile */
  int lines;   /* lines that the section reads */
};

static const struct scene scenes[] = {
    {"no one else", 0, 0, 1},
    {"a conflict that passes", 0, 1, 1},
    {"the lock is held", 1, 0, 1},
    {"a conflict each time", 0, TRIES, 1},
    {"a section that is too wide", 0, 0, WIDE},
};

static struct naszeptan_machine machine;
static uint64_t memory[NASZEPTAN_MEMORY];

/* One event. A refused one is a mistake in this file. */
static void does(struct naszeptan_event event) {
  struct naszeptan_done done =
      naszeptan_step(machine, memory, NASZEPTAN_MEMORY, event);
  if (done.answer != NASZEPTAN_DONE && done.answer != NASZEPTAN_HANDLED) {
    printf("refused by %u\n", done.answer);
    exit(2);
  }
  machine = done.machine;
}

static void load(uint8_t rt, uint32_t index) {
  does((struct naszeptan_event){
      .kind = NASZEPTAN_LD, .x = rt, .index = index});
}

static void store(uint8_t thread, uint8_t ra, uint32_t index) {
  does((struct naszeptan_event){
      .kind = NASZEPTAN_STD, .thread = thread, .ra = ra, .index = index});
}

static void add(uint8_t thread, uint8_t rt, uint8_t ra, uint16_t si) {
  does((struct naszeptan_event){
      .kind = NASZEPTAN_ADDI, .thread = thread, .x = rt, .ra = ra, .si = si});
}

static int in_state(uint8_t state) {
  return machine.threads[0].control.state == state;
}

/* The section: reads its lines and adds 1 to the data. It stops where the
 * transaction has failed, since thread 0 is then elsewhere. */
static void section(const struct scene *scene, int struck, uint8_t state) {
  for (int n = 0; n < scene->lines && in_state(state); n++)
    load(3, (uint32_t)(DATA + (scene->lines - 1 - n) * NASZEPTAN_LINE));
  if (struck)
    store(1, 7, DATA);
  if (in_state(state))
    add(0, 3, 3, 1);
  if (in_state(state))
    store(0, 3, DATA);
}

/* One try. True if it has committed. */
static int elides(const struct scene *scene, int struck) {
  does((struct naszeptan_event){.kind = NASZEPTAN_TBEGIN});
  load(4, LOCK);
  if (machine.threads[0].live.gpr[4] != 0)
    does((struct naszeptan_event){.kind = NASZEPTAN_TABORT, .ra = 5});
  if (in_state(NASZEPTAN_T))
    section(scene, struck, NASZEPTAN_T);
  if (!in_state(NASZEPTAN_T))
    return 0;
  does((struct naszeptan_event){.kind = NASZEPTAN_TEND});
  return 1;
}

enum move { AGAIN, WAIT, TAKE };
static const char *const moves[] = {"again", "wait for the lock",
                                    "take the lock"};

/* The policy. Bit 7 alone would not do: docs/RULES.md, X5. */
static enum move next_move(uint64_t texasr, int tries) {
  if (naszeptan_persistent_by_isa(texasr) || tries == TRIES)
    return TAKE;
  if (NASZEPTAN_TEXASR_ABORT(texasr) && NASZEPTAN_TEXASR_CODE(texasr) == HELD)
    return WAIT;
  return AGAIN;
}

/* TEXASR, as the failure handler reads it. */
static uint64_t cause(void) {
  does((struct naszeptan_event){
      .kind = NASZEPTAN_MFSPR, .x = NASZEPTAN_SPR_TEXASR, .ra = 6});
  return machine.threads[0].live.gpr[6];
}

static void locked(const struct scene *scene) {
  add(0, 8, 0, 1);
  store(0, 8, LOCK);
  section(scene, 0, NASZEPTAN_N);
  add(0, 8, 0, 0);
  store(0, 8, LOCK);
}

static const char *passes(const struct scene *scene) {
  char words[NASZEPTAN_WORDS];
  enum move move = AGAIN;
  for (int tries = 1; move != TAKE; tries++) {
    if (elides(scene, tries <= scene->strikes))
      return "by a transaction";
    uint64_t texasr = cause();
    move = next_move(texasr, tries);
    printf("  try %d: %s\n", tries,
           naszeptan_texasr_words(texasr, words, sizeof words));
    printf("         bit 7 is %u, by the Power ISA %d: %s\n",
           (unsigned)NASZEPTAN_TEXASR_PERSISTENT(texasr),
           naszeptan_persistent_by_isa(texasr), moves[move]);
    if (move == WAIT)
      store(1, 0, LOCK); /* thread 1 lets go */
  }
  locked(scene);
  return "under the lock";
}

int main(void) {
  for (size_t n = 0; n < sizeof scenes / sizeof *scenes; n++) {
    machine = naszeptan_fresh();
    memory[LOCK] = (uint64_t)scenes[n].held;
    memory[DATA] = 0;
    add(0, 5, 0, HELD);
    add(1, 7, 0, 100);
    printf("%s\n", scenes[n].name);
    const char *how = passes(&scenes[n]);
    printf("  %s: data %llu, lock %llu\n", how, (unsigned long long)memory[DATA],
           (unsigned long long)memory[LOCK]);
  }
  return 0;
}
