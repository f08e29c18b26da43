/* Runs the tape on standard input on a fresh machine and prints each event's
 * answer: what the program naszeptan prints, by a C host. The answers are those
 * of single steps; a run of the whole tape must end as they do. */
#include <stdio.h>

#include "naszeptan.h"

enum { LONGEST = 65536 };

static uint8_t tape[LONGEST + 1];
static uint64_t memory[NASZEPTAN_MEMORY], stepped[NASZEPTAN_MEMORY];

/* One record read and done on the machine. */
static uint8_t one(struct naszeptan_machine *machine, const uint8_t *bytes) {
  struct naszeptan_record record = naszeptan_read(bytes, NASZEPTAN_RECORD_SIZE);
  if (record.answer != NASZEPTAN_DONE)
    return record.answer;
  struct naszeptan_done done =
      naszeptan_step(*machine, stepped, NASZEPTAN_MEMORY, record.event);
  *machine = done.machine;
  return done.answer;
}

static int goes_on(uint8_t answer) {
  return answer == NASZEPTAN_DONE || answer == NASZEPTAN_HANDLED ||
         answer == NASZEPTAN_RECORDED;
}

/* Prints a line for each event until one is refused: how many were done. */
static size_t steps(size_t bytes) {
  struct naszeptan_machine machine = naszeptan_fresh();
  size_t done = 0;
  while (done * NASZEPTAN_RECORD_SIZE < bytes) {
    uint8_t answer = one(&machine, tape + done * NASZEPTAN_RECORD_SIZE);
    printf("%zu %u\n", done, answer);
    if (!goes_on(answer))
      break;
    done++;
  }
  return done;
}

/* Whether the run refused the tape for a record: then nothing was run. */
static int is_bad(uint8_t answer) {
  return answer >= NASZEPTAN_TAPE_LENGTH && answer <= NASZEPTAN_FIELD;
}

int main(void) {
  size_t bytes = fread(tape, 1, sizeof tape, stdin);
  if (bytes > LONGEST) {
    puts("long");
    return 0;
  }
  struct naszeptan_ended ended =
      naszeptan_run(naszeptan_fresh(), memory, NASZEPTAN_MEMORY, tape, bytes);
  if (is_bad(ended.answer)) {
    printf("bad %zu %u\n", ended.index, ended.answer);
    return ended.count != 0;
  }
  size_t done = steps(bytes);
  printf("end %zu\n", done);
  return ended.count != done || ended.index != done;
}
