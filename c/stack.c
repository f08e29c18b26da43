/* How much stack each call takes, held to what naszeptan.h promises. Each call
 * runs on a stack of its own that is filled with one byte before; what has
 * changed afterwards was used. */
#define _XOPEN_SOURCE 700
#include <stdio.h>
#include <stdlib.h>
#include <string.h>
#include <ucontext.h>

#include "naszeptan.h"

enum { PROMISED = 256 * 1024, SIZE = 1024 * 1024, FILL = 0xA5, RECORDS = 64 };

static unsigned char stack[SIZE];
static uint64_t memory[NASZEPTAN_MEMORY];
static uint8_t tape[RECORDS * NASZEPTAN_RECORD_SIZE], two[sizeof tape];
static uint8_t words[sizeof tape];
static uint8_t answers[RECORDS];
static struct naszeptan_machine machine;
static struct naszeptan_session session;
static ucontext_t back, there;
static volatile unsigned answer;

/* Events that fill a log, fail and commit: tbegin., stores of a kind, whose
 * indices are multiples of a step, an abort. */
static void fill_tape(uint8_t *to, uint8_t kind, int step) {
  for (int k = 0; k < RECORDS; k++) {
    struct naszeptan_event e = {.kind = kind, .ra = 3};
    e.index = (uint32_t)(k * 7 % 256 * step);
    if (k % 16 == 0)
      e = (struct naszeptan_event){.kind = NASZEPTAN_TBEGIN};
    if (k % 16 == 15)
      e = (struct naszeptan_event){.kind = k % 32 == 31 ? NASZEPTAN_TEND
                                                        : NASZEPTAN_TABORT};
    naszeptan_write(e, to + k * NASZEPTAN_RECORD_SIZE, NASZEPTAN_RECORD_SIZE);
  }
}

static void nothing(void) { answer = 0; }

static void valid(void) { answer = naszeptan_valid(machine, NASZEPTAN_MEMORY); }

static void step(void) {
  struct naszeptan_event e = {.kind = NASZEPTAN_TBEGIN};
  answer = naszeptan_step(machine, memory, NASZEPTAN_MEMORY, e).answer;
}

static void run(void) {
  answer = naszeptan_run(machine, memory, NASZEPTAN_MEMORY, tape, sizeof tape)
               .answer;
}

static void runs_words(void) {
  answer = naszeptan_run(machine, memory, NASZEPTAN_MEMORY, words, sizeof words)
               .answer;
}

static void opens(void) {
  answer = naszeptan_open(machine, NASZEPTAN_MEMORY).answer;
}

/* All but the first five bytes, which the session holds. */
static void feeds(void) {
  answer = naszeptan_feed(session, memory, NASZEPTAN_MEMORY, tape + 5,
                          sizeof tape - 5, answers, sizeof answers)
               .answer;
}

static void closes(void) {
  struct naszeptan_session whole = session;
  whole.held = 0;
  memset(whole.bytes, 0, sizeof whole.bytes);
  answer = naszeptan_close(whole, NASZEPTAN_MEMORY).answer;
}

static void reads(void) {
  answer = naszeptan_read(tape, NASZEPTAN_RECORD_SIZE).answer;
}

static void to_two(void) {
  answer = naszeptan_three_to_two(tape, sizeof tape, two, sizeof two).answer;
}

static void to_three(void) {
  answer = naszeptan_two_to_three(two, sizeof two, tape, sizeof tape).answer;
}

static const struct naszeptan_profile any = NASZEPTAN_ANY_PROCESSOR;

static void shows(void) {
  answer = naszeptan_on_hardware(any, UINT64_C(0x0008000018000001)).answer;
}

static void compares(void) {
  struct naszeptan_failure m = {UINT64_C(0x0008000018000001), 5, 4, 10};
  answer = naszeptan_compare(any, m, m).answer;
}

/* The bytes of stack that a call used. */
static size_t used_by(void (*call)(void)) {
  memset(stack, FILL, sizeof stack);
  if (getcontext(&there) != 0)
    exit(2);
  there.uc_stack.ss_sp = stack;
  there.uc_stack.ss_size = sizeof stack;
  there.uc_link = &back;
  makecontext(&there, call, 0);
  if (swapcontext(&back, &there) != 0)
    exit(2);
  size_t untouched = 0;
  while (untouched < sizeof stack && stack[untouched] == FILL)
    untouched++;
  return sizeof stack - untouched;
}

static int held(const char *name, void (*call)(void)) {
  size_t bytes = used_by(call);
  printf("stack: %s took %zu bytes of %d, and answered %u\n", name, bytes,
         PROMISED, answer);
  return bytes <= PROMISED && answer == 0;
}

int main(void) {
  machine = naszeptan_fresh();
  fill_tape(tape, NASZEPTAN_STD, 1);
  fill_tape(words, NASZEPTAN_STW, 4);
  session = naszeptan_open(machine, NASZEPTAN_MEMORY);
  session.held = 5;
  memcpy(session.bytes, tape, session.held);
  return held("nothing", nothing) && held("valid", valid) &&
                 held("step", step) && held("run", run) &&
                 held("run of stw", runs_words) && held("open", opens) &&
                 held("feed", feeds) && held("close", closes) &&
                 held("read", reads) && held("three to two", to_two) &&
                 held("two to three", to_three) &&
                 held("on hardware", shows) && held("compare", compares)
             ? 0
             : 1;
}
