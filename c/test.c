/* What a C host is promised: each function through the archive, each refusal,
 * and that what is refused changes nothing. Prints the first that fails. */
#include <stdio.h>
#include <stdlib.h>
#include <string.h>

#include "naszeptan.h"

/* The sizes that the archive was compiled for. */
_Static_assert(sizeof(struct naszeptan_registers) == 264, "registers");
_Static_assert(sizeof(struct naszeptan_entry) == 16, "entry");
_Static_assert(offsetof(struct naszeptan_entry, index) == 0, "index");
_Static_assert(offsetof(struct naszeptan_entry, marks) == 4, "marks");
_Static_assert(offsetof(struct naszeptan_entry, value) == 8, "value");
_Static_assert(sizeof((struct naszeptan_entry *)0)->marks == 1, "marks");
_Static_assert(sizeof(struct naszeptan_transaction) == 1096, "transaction");
_Static_assert(sizeof(struct naszeptan_control) == 56, "control");
_Static_assert(offsetof(struct naszeptan_control, texasr) == 32, "texasr");
_Static_assert(offsetof(struct naszeptan_control, srr0) == 40, "srr0");
_Static_assert(offsetof(struct naszeptan_control, srr1) == 48, "srr1");
_Static_assert(sizeof(struct naszeptan_thread) == 1688, "thread");
_Static_assert(sizeof(struct naszeptan_machine) == 6760, "machine");
_Static_assert(sizeof(struct naszeptan_event) == 16, "event");
_Static_assert(sizeof(struct naszeptan_done) == 6768, "done");
_Static_assert(offsetof(struct naszeptan_done, failed) == 1, "failed");
_Static_assert(sizeof(struct naszeptan_ended) == 6784, "ended");
_Static_assert(offsetof(struct naszeptan_ended, count) == 8, "count");
_Static_assert(offsetof(struct naszeptan_ended, index) == 16, "index");
_Static_assert(sizeof(struct naszeptan_session) == 6792, "session");
_Static_assert(offsetof(struct naszeptan_session, count) == 6760, "count");
_Static_assert(offsetof(struct naszeptan_session, held) == 6768, "held");
_Static_assert(offsetof(struct naszeptan_session, answer) == 6776, "answer");
_Static_assert(offsetof(struct naszeptan_session, bytes) == 6777, "bytes");
_Static_assert(sizeof(struct naszeptan_fed) == 6808, "fed");
_Static_assert(offsetof(struct naszeptan_fed, finished) == 8, "finished");
_Static_assert(offsetof(struct naszeptan_fed, session) == 16, "session");
_Static_assert(sizeof(struct naszeptan_record) == 20, "record");
_Static_assert(sizeof(struct naszeptan_converted) == 16, "converted");
_Static_assert(offsetof(struct naszeptan_converted, index) == 8, "index");
_Static_assert(sizeof(struct naszeptan_profile) == 16, "profile");
_Static_assert(offsetof(struct naszeptan_profile, nesting) == 10, "nesting");
_Static_assert(sizeof(struct naszeptan_shown) == 24, "shown");
_Static_assert(sizeof(struct naszeptan_failure) == 32, "failure");
_Static_assert(sizeof(struct naszeptan_compared) == 32, "compared");
_Static_assert(offsetof(struct naszeptan_compared, tfhar) == 24, "tfhar");

static int checks;

#define CHECK(holds)                                                           \
  do {                                                                         \
    checks++;                                                                  \
    if (!(holds)) {                                                            \
      printf("%s:%d: not so: %s\n", __FILE__, __LINE__, #holds);               \
      exit(1);                                                                 \
    }                                                                          \
  } while (0)

static uint64_t memory[NASZEPTAN_MEMORY];

/* Field by field: the padding between them may differ. */
static int same_machine(const struct naszeptan_machine *a,
                        const struct naszeptan_machine *b) {
  if (a->count != b->count)
    return 0;
  for (int t = 0; t < NASZEPTAN_THREADS; t++) {
    const struct naszeptan_thread *x = &a->threads[t], *y = &b->threads[t];
    const struct naszeptan_control *j = &x->control, *k = &y->control;
    const struct naszeptan_transaction *p = &x->transaction,
                                       *q = &y->transaction;
    if (memcmp(x->live.gpr, y->live.gpr, sizeof x->live.gpr) != 0 ||
        memcmp(x->live.cr, y->live.cr, sizeof x->live.cr) != 0 ||
        memcmp(x->checkpoint.gpr, y->checkpoint.gpr, sizeof x->live.gpr) != 0 ||
        memcmp(x->checkpoint.cr, y->checkpoint.cr, sizeof x->live.cr) != 0 ||
        x->cr0 != y->cr0 || j->nia != k->nia || j->pr != k->pr ||
        j->tm != k->tm || j->state != k->state || j->doomed != k->doomed ||
        j->tfhar != k->tfhar || j->tfiar != k->tfiar ||
        j->texasr != k->texasr || j->srr0 != k->srr0 || j->srr1 != k->srr1 ||
        memcmp(&p->reads, &q->reads, sizeof p->reads) != 0 ||
        memcmp(&p->writes, &q->writes, sizeof p->writes) != 0 ||
        p->count != q->count)
      return 0;
    for (int n = 0; n < NASZEPTAN_PLACES; n++)
      if (p->log[n].index != q->log[n].index ||
          p->log[n].marks != q->log[n].marks ||
          p->log[n].value != q->log[n].value)
        return 0;
  }
  return 1;
}

/* Whether all bytes from one place to another are 0xAA. */
static int kept(const uint8_t *buffer, size_t from, size_t to) {
  while (from < to && buffer[from] == 0xAA)
    from++;
  return from == to;
}

static struct naszeptan_event event(uint8_t kind, uint8_t thread) {
  struct naszeptan_event e = {0};
  e.kind = kind;
  e.thread = thread;
  return e;
}

static struct naszeptan_event load(uint8_t thread, uint8_t rt, uint32_t index) {
  struct naszeptan_event e = event(NASZEPTAN_LD, thread);
  e.x = rt;
  e.index = index;
  return e;
}

static struct naszeptan_event store(uint8_t thread, uint8_t ra,
                                    uint32_t index) {
  struct naszeptan_event e = event(NASZEPTAN_STD, thread);
  e.ra = ra;
  e.index = index;
  return e;
}

/* A load or store of the kinds 20 to 25, by its byte address. */
static struct naszeptan_event narrow(uint8_t kind, uint8_t thread, uint8_t r,
                                     uint32_t address) {
  struct naszeptan_event e = event(kind, thread);
  *(kind <= NASZEPTAN_LWZ ? &e.x : &e.ra) = r;
  e.index = address;
  return e;
}

/* The event is refused by the number; machine and memory stay, and no one has
 * failed. */
static void refused(struct naszeptan_machine m, size_t len,
                    struct naszeptan_event e, uint8_t number) {
  static uint64_t before[NASZEPTAN_MEMORY];
  memcpy(before, memory, sizeof memory);
  struct naszeptan_done done = naszeptan_step(m, memory, len, e);
  CHECK(done.answer == number);
  CHECK(done.failed == 0);
  CHECK(same_machine(&done.machine, &m));
  CHECK(memcmp(before, memory, sizeof memory) == 0);
}

/* The run ends by the number after this many records, and tells this index. */
static struct naszeptan_machine ends(struct naszeptan_machine m,
                                     const uint8_t *tape, size_t bytes,
                                     uint8_t number, size_t count,
                                     size_t index) {
  struct naszeptan_ended ended =
      naszeptan_run(m, memory, NASZEPTAN_MEMORY, tape, bytes);
  CHECK(ended.answer == number);
  CHECK(ended.count == count && ended.index == index);
  return ended.machine;
}

/* Nothing of the tape is run: machine and memory stay. */
static void not_run(struct naszeptan_machine m, const uint8_t *tape,
                    size_t bytes, uint8_t number, size_t index) {
  static uint64_t before[NASZEPTAN_MEMORY];
  memcpy(before, memory, sizeof memory);
  struct naszeptan_machine after = ends(m, tape, bytes, number, 0, index);
  CHECK(same_machine(&after, &m));
  CHECK(memcmp(before, memory, sizeof memory) == 0);
}

static void machines(void) {
  struct naszeptan_machine m = naszeptan_fresh();
  CHECK(naszeptan_version() == NASZEPTAN_VERSION);
  CHECK(m.count == NASZEPTAN_THREADS && m.threads[3].control.pr == 1);
  CHECK(m.threads[3].control.srr0 == 0 && m.threads[3].control.srr1 == 0);
  CHECK(naszeptan_valid(m, NASZEPTAN_MEMORY) == NASZEPTAN_DONE);
  CHECK(naszeptan_valid(m, NASZEPTAN_LINE) == NASZEPTAN_DONE);
  CHECK(naszeptan_valid(m, 0) == NASZEPTAN_SIZE);
  CHECK(naszeptan_valid(m, NASZEPTAN_LINE + 1) == NASZEPTAN_SIZE);
  CHECK(naszeptan_valid(m, SIZE_MAX) == NASZEPTAN_SIZE);
  m.count = 5;
  CHECK(naszeptan_valid(m, NASZEPTAN_MEMORY) == NASZEPTAN_SIZE);
  m.count = 3; /* the fourth record is not all zero */
  CHECK(naszeptan_valid(m, NASZEPTAN_MEMORY) == NASZEPTAN_NO_MACHINE);
  m.threads[3].control.pr = m.threads[3].control.tm = 0;
  m.threads[0].control.srr0 = m.threads[0].control.srr1 = UINT64_MAX;
  CHECK(naszeptan_valid(m, NASZEPTAN_MEMORY) == NASZEPTAN_DONE);
  m.threads[3].control.srr0 = 1;
  CHECK(naszeptan_valid(m, NASZEPTAN_MEMORY) == NASZEPTAN_NO_MACHINE);
  m.threads[3].control.srr0 = 0;
  m.threads[3].control.srr1 = UINT64_C(1) << 63;
  CHECK(naszeptan_valid(m, NASZEPTAN_MEMORY) == NASZEPTAN_NO_MACHINE);
}

/* Bits that are no machine, in each flag of each thread. */
static void bits(void) {
  struct naszeptan_event e = event(NASZEPTAN_TBEGIN, 0);
  for (int t = 0; t < NASZEPTAN_THREADS; t++)
    for (int field = 0; field < 4; field++) {
      struct naszeptan_machine m = naszeptan_fresh();
      struct naszeptan_control *k = &m.threads[t].control;
      *(field == 0   ? &k->pr
        : field == 1 ? &k->tm
        : field == 2 ? &k->doomed
                     : &k->state) = field == 3 ? 3 : 2;
      CHECK(naszeptan_valid(m, NASZEPTAN_MEMORY) == NASZEPTAN_NO_MACHINE);
      refused(m, NASZEPTAN_MEMORY, e, NASZEPTAN_NO_MACHINE);
      refused(m, 17, e, NASZEPTAN_SIZE);
      not_run(m, NULL, 0, NASZEPTAN_NO_MACHINE, 0);
      not_run(m, (const uint8_t[17]){0}, 16, NASZEPTAN_NO_MACHINE, 0);
      not_run(m, (const uint8_t[17]){0}, 17, NASZEPTAN_NO_MACHINE, 0);
    }
  struct naszeptan_machine m;
  memset(&m, 0xFF, sizeof m);
  refused(m, NASZEPTAN_MEMORY, e, NASZEPTAN_SIZE);
  m.count = 4;
  refused(m, NASZEPTAN_MEMORY, e, NASZEPTAN_NO_MACHINE);
}

static void refusals(void) {
  struct naszeptan_machine m = naszeptan_fresh();
  struct naszeptan_event none = event(0, 9), unused = event(NASZEPTAN_TEND, 9);
  unused.rb = 1;
  refused(m, NASZEPTAN_MEMORY, none, NASZEPTAN_NO_KIND);
  refused(m, NASZEPTAN_MEMORY, event(27, 0), NASZEPTAN_NO_KIND);
  refused(m, NASZEPTAN_MEMORY, event(NASZEPTAN_RFID, 0), NASZEPTAN_PRIVILEGED);
  refused(m, NASZEPTAN_MEMORY, unused, NASZEPTAN_FIELD);
  refused(m, 0, none, NASZEPTAN_SIZE);
  refused(m, NASZEPTAN_MEMORY, event(NASZEPTAN_TEND, 4), NASZEPTAN_NO_THREAD);
  refused(m, NASZEPTAN_MEMORY, store(0, 32, 0), NASZEPTAN_OPERAND);
  refused(m, NASZEPTAN_LINE, store(0, 3, 16), NASZEPTAN_OPERAND);
  refused(m, NASZEPTAN_MEMORY, event(NASZEPTAN_TRECLAIM, 0),
          NASZEPTAN_PRIVILEGED);
  m.threads[0].control.pr = 0;
  refused(m, NASZEPTAN_MEMORY, event(NASZEPTAN_TRECLAIM, 0),
          NASZEPTAN_BAD_THING);
  m.threads[0].control.tm = 0;
  refused(m, NASZEPTAN_MEMORY, event(NASZEPTAN_TBEGIN, 0),
          NASZEPTAN_FACILITY_OFF);
  m = naszeptan_fresh();
  m = naszeptan_step(m, memory, NASZEPTAN_MEMORY, event(NASZEPTAN_TBEGIN, 0))
          .machine;
  refused(m, NASZEPTAN_MEMORY, event(NASZEPTAN_HOST, 0), NASZEPTAN_HOST_IN_T);
}

/* The records of these events. */
static void write_tape(const struct naszeptan_event *events, size_t count,
                       uint8_t *tape) {
  for (size_t n = 0; n < count; n++)
    CHECK(naszeptan_write(events[n], tape + 16 * n, 16) == NASZEPTAN_DONE);
}

/* A transaction fails because another thread stores to what it has read. */
static void conflict(void) {
  struct naszeptan_event events[] = {event(NASZEPTAN_TBEGIN, 0), load(0, 4, 0),
                                     store(0, 4, 16), store(1, 5, 0)};
  uint8_t tape[4 * NASZEPTAN_RECORD_SIZE];
  struct naszeptan_machine m = naszeptan_fresh();
  m.threads[1].live.gpr[5] = 7;
  write_tape(events, 4, tape);
  m = ends(m, tape, sizeof tape, NASZEPTAN_DONE, 4, 4);
  struct naszeptan_control k = m.threads[0].control;
  CHECK(k.state == NASZEPTAN_N && k.nia == 4);
  CHECK(NASZEPTAN_TEXASR_NON_TRANSACTIONAL_CONFLICT(k.texasr) == 1);
  CHECK(NASZEPTAN_TEXASR_FAILED(k.texasr) == 1);
  CHECK(memory[0] == 7 && memory[16] == 0);
  memory[0] = 0;
}

/* Bytes that make a record none, and the numbers that say so. */
static const struct {
  size_t place;
  uint8_t byte, number;
} spoilt[] = {{0, 0, NASZEPTAN_BAD_FIRST_BYTE},
              {1, 0, NASZEPTAN_NO_KIND},
              {15, 1, NASZEPTAN_FIELD}};

/* The record at this index of a good tape of three is made bad in each way. */
static void spoils(struct naszeptan_machine m, const uint8_t *tape,
                   size_t index) {
  for (size_t n = 0; n < 3; n++) {
    uint8_t bad[3 * 16];
    memcpy(bad, tape, sizeof bad);
    bad[16 * index + spoilt[n].place] = spoilt[n].byte;
    not_run(m, bad, sizeof bad, spoilt[n].number, index);
    /* 6 comes before all records; and the first of two is told. */
    not_run(m, bad, sizeof bad - 1, NASZEPTAN_TAPE_LENGTH, 2);
    bad[16 * 2] = index == 2 ? bad[16 * 2] : 0;
    not_run(m, bad, sizeof bad, spoilt[n].number, index);
  }
}

/* docs/RULES.md, R1: a tape with a bad record is not run, whatever stands
 * before it. Here that is a store, and then a treclaim. that is refused. */
static void bad_records(void) {
  struct naszeptan_event events[] = {
      store(1, 5, 0), event(NASZEPTAN_TRECLAIM, 0), event(NASZEPTAN_TEND, 0)};
  uint8_t tape[3 * NASZEPTAN_RECORD_SIZE];
  struct naszeptan_machine m = naszeptan_fresh();
  m.threads[0].control.pr = 0;
  m.threads[1].live.gpr[5] = 7;
  write_tape(events, 3, tape);
  for (size_t index = 0; index < 3; index++)
    spoils(m, tape, index);
  not_run(m, tape, 1, NASZEPTAN_TAPE_LENGTH, 0);
  not_run(m, NULL, 0, NASZEPTAN_DONE, 0);
  /* As it stands, the tape is run up to the treclaim. */
  ends(m, tape, sizeof tape, NASZEPTAN_BAD_THING, 1, 1);
  CHECK(memory[0] == 7);
  memory[0] = 0;
}

/* Field by field, as the machines. */
static int same_session(const struct naszeptan_session *a,
                        const struct naszeptan_session *b) {
  return same_machine(&a->machine, &b->machine) && a->count == b->count &&
         a->held == b->held && a->answer == b->answer &&
         memcmp(a->bytes, b->bytes, sizeof a->bytes) == 0;
}

/* Four records that are done, one that is refused by 3, one behind it; and the
 * answers of those that are looked at. */
enum { STREAM = 6 * NASZEPTAN_RECORD_SIZE, STOP = 4 };
static uint8_t stream[STREAM];
static const uint8_t stream_answers[] = {0, 0, NASZEPTAN_HANDLED, 0,
                                         NASZEPTAN_NO_THREAD};

static void write_stream(void) {
  const struct naszeptan_event events[] = {event(NASZEPTAN_TBEGIN, 0),
                                           store(0, 3, 16),
                                           event(NASZEPTAN_TABORT, 0),
                                           store(1, 5, 0),
                                           store(4, 5, 0),
                                           store(1, 5, 1)};
  write_tape(events, 6, stream);
}

/* A fresh session in which thread 1's store would be seen. */
static struct naszeptan_session opened(void) {
  struct naszeptan_machine m = naszeptan_fresh();
  m.threads[1].live.gpr[5] = 7;
  memory[0] = 0;
  return naszeptan_open(m, NASZEPTAN_MEMORY);
}

/* The session closes by the number after so many records. */
static void closes(const struct naszeptan_session *s, uint8_t number,
                   size_t count) {
  struct naszeptan_ended ended = naszeptan_close(*s, NASZEPTAN_MEMORY);
  CHECK(ended.answer == number);
  CHECK(ended.count == count && ended.index == count);
  CHECK(same_machine(&ended.machine, &s->machine));
}

/* The stream's first bytes in pieces of one length: the session, once all
 * answers are as they must be. */
static struct naszeptan_session feed_stream(size_t bytes, size_t length) {
  struct naszeptan_session s = opened();
  size_t finished = 0;
  for (size_t from = 0; from < bytes; from += length) {
    uint8_t answers[8];
    size_t some = bytes - from < length ? bytes - from : length;
    memset(answers, 0xAA, sizeof answers);
    struct naszeptan_fed fed =
        naszeptan_feed(s, memory, NASZEPTAN_MEMORY, stream + from, some,
                       answers, sizeof answers);
    s = fed.session;
    CHECK(fed.answer == s.answer && fed.finished <= 6);
    CHECK(finished + fed.finished <= sizeof stream_answers);
    CHECK(memcmp(answers, stream_answers + finished, fed.finished) == 0);
    CHECK(kept(answers, fed.finished, sizeof answers));
    finished += fed.finished;
  }
  CHECK(finished == s.count + (s.answer != 0));
  return s;
}

/* docs/RULES.md, Q9: over any cutting it is the same. */
static void pieces(void) {
  struct naszeptan_ended run =
      naszeptan_run(opened().machine, memory, NASZEPTAN_MEMORY, stream, STREAM);
  CHECK(run.answer == NASZEPTAN_NO_THREAD && run.count == STOP);
  for (size_t length = 1; length <= STREAM; length++) {
    struct naszeptan_session s = feed_stream(STREAM, length);
    closes(&s, NASZEPTAN_NO_THREAD, STOP);
    CHECK(s.held == 0 && same_machine(&s.machine, &run.machine));
    CHECK(memory[0] == 7 && memory[1] == 0 && memory[16] == 0);
  }
  for (size_t bytes = 0; bytes <= STOP * 16; bytes++) {
    struct naszeptan_session s = feed_stream(bytes, 17);
    CHECK(s.held == bytes % 16 && s.count == bytes / 16 && s.answer == 0);
    CHECK(memcmp(s.bytes, stream + bytes / 16 * 16, s.held) == 0);
    closes(&s, s.held == 0 ? NASZEPTAN_DONE : NASZEPTAN_TAPE_LENGTH,
           bytes / 16);
  }
}

/* Q5 and Q7: after a stop nothing changes; a short buffer has what it can. */
static void stopped(void) {
  struct naszeptan_session s = feed_stream(STREAM, STREAM);
  uint8_t answers[8];
  memset(answers, 0xAA, sizeof answers);
  for (size_t bytes = 0; bytes <= STREAM; bytes += 8) {
    struct naszeptan_fed fed = naszeptan_feed(
        s, memory, NASZEPTAN_MEMORY, stream, bytes, answers, sizeof answers);
    CHECK(fed.answer == NASZEPTAN_NO_THREAD && fed.finished == 0);
    CHECK(same_session(&fed.session, &s));
    CHECK(kept(answers, 0, sizeof answers));
  }
  for (size_t room = 0; room <= 5; room++) {
    memset(answers, 0xAA, sizeof answers);
    struct naszeptan_fed fed = naszeptan_feed(
        opened(), memory, NASZEPTAN_MEMORY, stream, STREAM, answers, room);
    CHECK(fed.finished == STOP + 1 && fed.session.count == STOP);
    CHECK(memcmp(answers, stream_answers, room) == 0);
    CHECK(kept(answers, room, sizeof answers));
  }
}

/* Q6 and Q9: a bad record stops it where it stands, and what was done before
 * stays; an unfinished one is not looked at. */
static void bad_pieces(void) {
  for (size_t n = 0; n < 3; n++)
    for (size_t index = 0; index < STOP; index++) {
      struct naszeptan_session before = feed_stream(16 * index, 16), s = before;
      uint8_t bad[16];
      memcpy(bad, stream + 16 * index, 16);
      bad[spoilt[n].place] = spoilt[n].byte;
      for (size_t k = 0; k < 16; k++) {
        CHECK(s.answer == 0 && s.held == k);
        closes(&s, k == 0 ? NASZEPTAN_DONE : NASZEPTAN_TAPE_LENGTH, index);
        s = naszeptan_feed(s, memory, NASZEPTAN_MEMORY, bad + k, 1, NULL, 0)
                .session;
      }
      closes(&s, spoilt[n].number, index);
      CHECK(s.held == 0 && same_machine(&s.machine, &before.machine));
    }
}

/* Feeding and closing are refused by the number, and nothing changes. */
static void no_session(struct naszeptan_session s, size_t len, uint8_t number) {
  static uint64_t before[NASZEPTAN_MEMORY];
  uint8_t answers[8];
  memset(answers, 0xAA, sizeof answers);
  memcpy(before, memory, sizeof memory);
  for (size_t bytes = 0; bytes <= STREAM; bytes += 12) {
    struct naszeptan_fed fed =
        naszeptan_feed(s, memory, len, stream, bytes, answers, sizeof answers);
    CHECK(fed.answer == number && fed.finished == 0);
    CHECK(same_session(&fed.session, &s));
  }
  CHECK(kept(answers, 0, sizeof answers));
  CHECK(memcmp(before, memory, sizeof memory) == 0);
  struct naszeptan_ended ended = naszeptan_close(s, len);
  CHECK(ended.answer == number && ended.count == 0 && ended.index == 0);
  CHECK(same_machine(&ended.machine, &s.machine));
}

/* Q2 and H10: bits that are no session, each wrong in one thing. */
static void session_bits(void) {
  static const uint8_t wrong[] = {1, 2, 6, 10, 14, 20, 21, 99, 255};
  const struct naszeptan_session busy = feed_stream(37, 37);
  struct naszeptan_session s = busy;
  no_session(s, 17, NASZEPTAN_SIZE);
  for (s.held = 16; s.held < 20; s.held++)
    no_session(s, NASZEPTAN_MEMORY, NASZEPTAN_NO_MACHINE);
  s.held = SIZE_MAX;
  no_session(s, NASZEPTAN_MEMORY, NASZEPTAN_NO_MACHINE);
  no_session(s, 0, NASZEPTAN_SIZE);
  for (size_t k = busy.held; k < NASZEPTAN_HELD; k++) {
    s = busy;
    s.bytes[k] = 1;
    no_session(s, NASZEPTAN_MEMORY, NASZEPTAN_NO_MACHINE);
  }
  s = busy;
  s.answer = NASZEPTAN_BAD_THING; /* stopped, and yet bytes are held */
  no_session(s, NASZEPTAN_MEMORY, NASZEPTAN_NO_MACHINE);
  for (size_t n = 0; n < sizeof wrong; n++) {
    s = opened();
    s.answer = wrong[n];
    no_session(s, NASZEPTAN_MEMORY, NASZEPTAN_NO_MACHINE);
  }
  s = busy;
  s.machine.threads[3].control.state = 3;
  no_session(s, NASZEPTAN_MEMORY, NASZEPTAN_NO_MACHINE);
  no_session(s, 17, NASZEPTAN_SIZE);
  s = busy;
  s.machine.threads[3].control.nia = 1;
  no_session(s, NASZEPTAN_MEMORY, NASZEPTAN_NO_MACHINE);
  s.machine.count = 5;
  no_session(s, NASZEPTAN_MEMORY, NASZEPTAN_SIZE);
}

/* Q3: what opening refuses is no session. And Q1: the count wraps. */
static void openings(void) {
  struct naszeptan_session s = opened();
  CHECK(s.count == 0 && s.held == 0 && s.answer == 0);
  CHECK(memcmp(s.bytes, (const uint8_t[NASZEPTAN_HELD]){0}, NASZEPTAN_HELD) ==
        0);
  closes(&s, NASZEPTAN_DONE, 0);
  struct naszeptan_machine m = naszeptan_fresh();
  s = naszeptan_open(m, 17);
  CHECK(s.answer == NASZEPTAN_SIZE && same_machine(&s.machine, &m));
  no_session(s, 17, NASZEPTAN_SIZE);
  m.threads[0].control.pr = 2;
  s = naszeptan_open(m, NASZEPTAN_MEMORY);
  CHECK(s.answer == NASZEPTAN_NO_MACHINE && same_machine(&s.machine, &m));
  no_session(s, NASZEPTAN_MEMORY, NASZEPTAN_NO_MACHINE);
  s = opened();
  s.count = UINT64_MAX;
  s = naszeptan_feed(s, memory, NASZEPTAN_MEMORY, stream, 32, NULL, 0).session;
  closes(&s, NASZEPTAN_DONE, 1);
}

static void sessions(void) {
  write_stream();
  pieces();
  stopped();
  bad_pieces();
  session_bits();
  openings();
  memory[0] = 0;
}

/* The machine that the checks of failed go on with. */
static struct naszeptan_machine desk;

/* The event gives this answer and has failed these threads. */
static void fails(struct naszeptan_event e, uint8_t answer, uint8_t failed) {
  struct naszeptan_done done =
      naszeptan_step(desk, memory, NASZEPTAN_MEMORY, e);
  CHECK(done.answer == answer);
  CHECK(done.failed == failed);
  desk = done.machine;
}

/* The event is done and fails no one. */
static void spares(struct naszeptan_event e) { fails(e, NASZEPTAN_DONE, 0); }

static struct naszeptan_event flagged(uint8_t kind, uint8_t flags) {
  struct naszeptan_event e = event(kind, 0);
  e.flags = flags;
  return e;
}

/* A fresh machine with thread 0 in a transaction, privileged. */
static void begun(void) {
  desk = naszeptan_fresh();
  desk.threads[0].control.pr = 0;
  spares(event(NASZEPTAN_TBEGIN, 0));
}

/* docs/RULES.md, H8: a thread's own failures. */
static void failed_itself(void) {
  const struct naszeptan_event tabort = event(NASZEPTAN_TABORT, 0);
  const struct naszeptan_event tsuspend = flagged(NASZEPTAN_TSR, 0);
  const struct naszeptan_event tresume = flagged(NASZEPTAN_TSR, 1);
  const struct naszeptan_event treclaim = event(NASZEPTAN_TRECLAIM, 0);
  begun();
  fails(load(0, 32, 0), NASZEPTAN_OPERAND, 0);
  fails(tabort, NASZEPTAN_HANDLED, 1);
  spares(tabort); /* outside a transaction */
  spares(event(NASZEPTAN_TBEGIN, 3));
  fails(event(NASZEPTAN_DISALLOWED, 3), NASZEPTAN_HANDLED, 8);
  /* In S it is told when it is recorded, and again when it is handled. */
  begun();
  spares(tsuspend);
  fails(tabort, NASZEPTAN_RECORDED, 1);
  spares(tabort); /* FS is 1: nothing is recorded */
  fails(tresume, NASZEPTAN_HANDLED, 1);
  /* A reclaim is told of a live transaction, in T and in S. */
  begun();
  fails(treclaim, NASZEPTAN_DONE, 1);
  begun();
  spares(tsuspend);
  fails(treclaim, NASZEPTAN_DONE, 1);
  /* Of a doomed one it is not: it records nothing. */
  begun();
  spares(tsuspend);
  fails(tabort, NASZEPTAN_RECORDED, 1);
  spares(treclaim);
}

/* A commit is no failure: at level 1, and of all levels at once. */
static void failed_by_no_commit(void) {
  begun();
  spares(event(NASZEPTAN_TBEGIN, 1));
  spares(load(1, 4, 0));
  spares(store(0, 4, 16));
  spares(event(NASZEPTAN_TEND, 0));
  CHECK(desk.threads[0].control.state == NASZEPTAN_N);
  CHECK(desk.threads[1].control.state == NASZEPTAN_T);
  begun();
  spares(event(NASZEPTAN_TBEGIN, 0));
  spares(flagged(NASZEPTAN_TEND, 1));
  CHECK(desk.threads[0].control.state == NASZEPTAN_N);
}

/* Others, of whom the answer says nothing. */
static void failed_others(void) {
  begun();
  spares(load(0, 4, 0));
  spares(event(NASZEPTAN_TBEGIN, 2));
  spares(load(2, 4, 1));
  struct naszeptan_event suspends = flagged(NASZEPTAN_TSR, 0);
  suspends.thread = 2;
  spares(suspends);
  fails(store(1, 5, 2), NASZEPTAN_DONE, 1 + 4);
  CHECK(desk.threads[0].control.state == NASZEPTAN_N);
  CHECK(desk.threads[2].control.doomed == 1);
  spares(store(1, 5, 2));
  /* A store in S to a line of its own and of all others. */
  desk = naszeptan_fresh();
  for (uint8_t t = 0; t < NASZEPTAN_THREADS; t++) {
    spares(event(NASZEPTAN_TBEGIN, t));
    spares(load(t, 4, 0));
  }
  spares(flagged(NASZEPTAN_TSR, 0));
  fails(store(0, 5, 0), NASZEPTAN_RECORDED, 15);
}

/* Each flag of TEXASR is its bit and no other; wider fields by a value. */
static void fields(void) {
  for (int n = 0; n < 64; n++) {
    uint64_t t = UINT64_C(1) << (63 - n);
    CHECK(NASZEPTAN_TEXASR_PERSISTENT(t) == (n == 7));
    CHECK(NASZEPTAN_TEXASR_DISALLOWED(t) == (n == 8));
    CHECK(NASZEPTAN_TEXASR_NESTING_OVERFLOW(t) == (n == 9));
    CHECK(NASZEPTAN_TEXASR_FOOTPRINT_OVERFLOW(t) == (n == 10));
    CHECK(NASZEPTAN_TEXASR_SELF_INDUCED_CONFLICT(t) == (n == 11));
    CHECK(NASZEPTAN_TEXASR_NON_TRANSACTIONAL_CONFLICT(t) == (n == 12));
    CHECK(NASZEPTAN_TEXASR_TRANSACTION_CONFLICT(t) == (n == 13));
    CHECK(NASZEPTAN_TEXASR_TRANSLATION_INVALIDATION(t) == (n == 14));
    CHECK(NASZEPTAN_TEXASR_IMPLEMENTATION_SPECIFIC(t) == (n == 15));
    CHECK(NASZEPTAN_TEXASR_INSTRUCTION_FETCH_CONFLICT(t) == (n == 16));
    CHECK(NASZEPTAN_TEXASR_ABORT(t) == (n == 31));
    CHECK(NASZEPTAN_TEXASR_SUSPENDED(t) == (n == 32));
    CHECK(NASZEPTAN_TEXASR_HV(t) == (n == 34));
    CHECK(NASZEPTAN_TEXASR_PR(t) == (n == 35));
    CHECK(NASZEPTAN_TEXASR_FAILED(t) == (n == 36));
    CHECK(NASZEPTAN_TEXASR_EXACT(t) == (n == 37));
    CHECK(NASZEPTAN_TEXASR_ROT(t) == (n == 38));
    CHECK(naszeptan_persistent_by_isa(t) == (n >= 7 && n <= 11));
    t |= UINT64_C(1) << (63 - 7); /* a program's own bit, for an abort alone */
    CHECK(naszeptan_persistent_by_isa(t) == (n < 12 || n > 16));
  }
  uint64_t t = UINT64_C(0xA512345620000FED);
  CHECK(NASZEPTAN_TEXASR_CODE(t) == 0xA5);
  CHECK(NASZEPTAN_TEXASR_CAUSE(t) == 0x123456);
  CHECK(NASZEPTAN_TEXASR_PRIVILEGE(t) == 2);
  CHECK(NASZEPTAN_TEXASR_LEVEL(t) == 0xFED);
}

/* Thread 0's state, PR, TM and NIA on the desk. */
static int is_at(uint8_t state, uint8_t pr, uint8_t tm, uint64_t nia) {
  struct naszeptan_control k = desk.threads[0].control;
  return k.state == state && k.pr == pr && k.tm == tm && k.nia == nia;
}

/* docs/RULES.md, K14 and K15: an interrupt in a transaction, and rfid back, the
 * transaction living or doomed meanwhile. */
static void interrupted(int doomed) {
  desk = naszeptan_fresh();
  desk.threads[0].control.nia = 0x1000;
  spares(event(NASZEPTAN_TBEGIN, 0));
  if (doomed)
    spares(load(0, 4, 17));
  spares(event(NASZEPTAN_INTERRUPT, 0));
  uint64_t srr1 = desk.threads[0].control.srr1;
  CHECK(is_at(NASZEPTAN_S, 0, 0, 0x500));
  CHECK(desk.threads[0].control.srr0 == (doomed ? 0x1008 : 0x1004));
  CHECK(srr1 == UINT64_C(0x0000000500004000));
  CHECK(NASZEPTAN_SRR1_TS(srr1) == NASZEPTAN_TS_T);
  CHECK(NASZEPTAN_SRR1_TM(srr1) == 1 && NASZEPTAN_SRR1_PR(srr1) == 1);
  if (doomed) {
    fails(store(1, 5, 17), NASZEPTAN_DONE, 1);
    fails(event(NASZEPTAN_RFID, 0), NASZEPTAN_HANDLED, 1);
    CHECK(is_at(NASZEPTAN_N, 1, 1, 0x1004) && desk.threads[0].cr0 == 10);
    CHECK(desk.threads[0].control.texasr == UINT64_C(0x0008000088000001));
    CHECK(desk.threads[0].control.tfiar == 0x500);
  } else {
    spares(event(NASZEPTAN_RFID, 0));
    CHECK(is_at(NASZEPTAN_T, 1, 1, 0x1004) && desk.threads[0].cr0 == 0);
  }
}

static struct naszeptan_event tlbie(uint8_t thread, uint32_t page) {
  struct naszeptan_event e = event(NASZEPTAN_TLBIE, thread);
  e.index = page;
  return e;
}

/* Thread 0, privileged, suspended after a load of doubleword 17. */
static void suspended_with_line_1(void) {
  desk = naszeptan_fresh();
  spares(flagged(NASZEPTAN_HOST, 2));
  spares(event(NASZEPTAN_TBEGIN, 0));
  spares(load(0, 4, 17));
  spares(flagged(NASZEPTAN_TSR, 0));
}

/* docs/RULES.md, K19, K20 and K21: a tlbie of a page of which a line is in the
 * sets, of the page beside it, and by another thread; and K26, the last page. */
static void pages(void) {
  suspended_with_line_1();
  fails(tlbie(0, 0), NASZEPTAN_RECORDED, 1);
  struct naszeptan_control k = desk.threads[0].control;
  CHECK(k.texasr == UINT64_C(0x0002000088000001) && k.tfiar == 0x000C);
  CHECK(NASZEPTAN_TEXASR_TRANSLATION_INVALIDATION(k.texasr) == 1);
  CHECK(NASZEPTAN_TEXASR_EXACT(k.texasr) == 0 && k.doomed == 1);
  CHECK(is_at(NASZEPTAN_S, 0, 1, 0x0010) && desk.threads[0].cr0 == 4);
  fails(flagged(NASZEPTAN_TSR, 1), NASZEPTAN_HANDLED, 1);
  CHECK(is_at(NASZEPTAN_N, 0, 1, 0x0004));
  suspended_with_line_1();
  spares(tlbie(0, 1));
  k = desk.threads[0].control;
  CHECK(k.texasr == 1 && k.tfiar == 0 && k.doomed == 0 && k.nia == 0x0010);
  spares(flagged(NASZEPTAN_TSR, 1));
  CHECK(desk.threads[0].control.state == NASZEPTAN_T);
  desk = naszeptan_fresh();
  desk.threads[1].control.pr = 0;
  spares(event(NASZEPTAN_TBEGIN, 0));
  spares(load(0, 4, 17));
  fails(tlbie(1, 0), NASZEPTAN_DONE, 1);
  CHECK(desk.threads[0].control.texasr == UINT64_C(0x0002000018000001));
  CHECK(is_at(NASZEPTAN_N, 1, 1, 0x0004) && desk.threads[0].cr0 == 10);
  refused(desk, NASZEPTAN_MEMORY, tlbie(1, 8), NASZEPTAN_OPERAND);
  refused(desk, 1024, tlbie(1, 2), NASZEPTAN_OPERAND);
  refused(desk, 1040, tlbie(1, 3), NASZEPTAN_OPERAND);
  refused(desk, NASZEPTAN_MEMORY, tlbie(1, UINT32_C(1) << 23),
          NASZEPTAN_OPERAND);
  refused(desk, NASZEPTAN_MEMORY, tlbie(0, 0), NASZEPTAN_PRIVILEGED);
}

/* The fresh machine on the desk, over a memory of zeros. */
static void wiped(void) {
  memset(memory, 0, sizeof memory);
  desk = naszeptan_fresh();
}

/* Thread 0 gets this by a load of the kind at the address. The register was not
 * zero in any byte. */
static void loads(uint8_t kind, uint32_t address, uint64_t wanted) {
  desk.threads[0].live.gpr[7] = UINT64_MAX;
  spares(narrow(kind, 0, 7, address));
  CHECK(desk.threads[0].live.gpr[7] == wanted);
}

/* Thread 0 stores this value by the kind at the address, and fails no one. */
static void stores(uint8_t kind, uint64_t value, uint32_t address) {
  desk.threads[0].live.gpr[3] = value;
  spares(narrow(kind, 0, 3, address));
}

/* Thread 0's log has so many places, and this one is so. */
static int logged(size_t count, size_t place, uint32_t index, uint8_t marks,
                  uint64_t value) {
  const struct naszeptan_transaction *t = &desk.threads[0].transaction;
  return t->count == count && t->log[place].index == index &&
         t->log[place].marks == marks && t->log[place].value == value;
}

/* docs/RULES.md, K27 and K28: bytes of memory; byte 0 is the highest. */
static void bytes_in_memory(void) {
  const uint64_t value = UINT64_C(0x1122334455667788);
  wiped();
  stores(NASZEPTAN_STB, value, 8);
  CHECK(memory[1] == UINT64_C(0x8800000000000000));
  stores(NASZEPTAN_STH, value, 10);
  CHECK(memory[1] == UINT64_C(0x8800778800000000));
  stores(NASZEPTAN_STW, value, 12);
  CHECK(memory[1] == UINT64_C(0x8800778855667788));
  CHECK(memory[0] == 0 && memory[2] == 0);
  memory[1] = value;
  loads(NASZEPTAN_LBZ, 8, 0x11);
  loads(NASZEPTAN_LBZ, 15, 0x88);
  loads(NASZEPTAN_LHZ, 10, 0x3344);
  loads(NASZEPTAN_LWZ, 12, 0x55667788);
  /* As the header has it, for each byte. */
  for (uint32_t a = 8; a < 16; a++)
    loads(NASZEPTAN_LBZ, a, memory[a / 8] >> (56 - a % 8 * 8) & 0xFF);
}

/* K29 to K31: which bytes the log has, what is seen over memory, and what a
 * commit changes. */
static void bytes_in_the_log(void) {
  wiped();
  spares(event(NASZEPTAN_TBEGIN, 0));
  stores(NASZEPTAN_STW, 1, 4);
  CHECK(logged(1, 0, 0, 0x0F, 1));
  stores(NASZEPTAN_STW, 2, 0);
  CHECK(logged(1, 0, 0, NASZEPTAN_ALL_MARKS, UINT64_C(0x0000000200000001)));
  CHECK(memory[0] == 0);
  wiped();
  memory[2] = UINT64_C(0x1111111111111111);
  spares(event(NASZEPTAN_TBEGIN, 0));
  stores(NASZEPTAN_STH, 0xABCD, 18);
  CHECK(logged(1, 0, 2, 0x30, UINT64_C(0x0000ABCD00000000)));
  spares(load(0, 7, 2));
  CHECK(desk.threads[0].live.gpr[7] == UINT64_C(0x1111ABCD11111111));
  CHECK(desk.threads[0].transaction.reads.words[0] == 1);
  CHECK(desk.threads[0].transaction.writes.words[0] == 1);
  loads(NASZEPTAN_LBZ, 18, 0xAB);
  loads(NASZEPTAN_LWZ, 16, 0x1111ABCD);
  loads(NASZEPTAN_LWZ, 20, 0x11111111);
  wiped();
  memory[0] = UINT64_C(0xAAAAAAAA00000000);
  spares(event(NASZEPTAN_TBEGIN, 0));
  stores(NASZEPTAN_STW, 7, 4);
  spares(event(NASZEPTAN_TEND, 0));
  CHECK(memory[0] == UINT64_C(0xAAAAAAAA00000007));
}

/* K32: addresses that are no multiple of the width, or past memory. */
static void addresses(void) {
  static const uint8_t widths[] = {1, 2, 4, 1, 2, 4};
  struct naszeptan_machine m = naszeptan_fresh();
  for (uint8_t kind = NASZEPTAN_LBZ; kind <= NASZEPTAN_STW; kind++) {
    uint32_t width = widths[kind - NASZEPTAN_LBZ], end = 8 * NASZEPTAN_LINE;
    for (uint32_t a = 0; a < 16; a++)
      if (a % width != 0)
        refused(m, NASZEPTAN_LINE, narrow(kind, 0, 3, a), NASZEPTAN_OPERAND);
    refused(m, NASZEPTAN_LINE, narrow(kind, 0, 3, end), NASZEPTAN_OPERAND);
    refused(m, NASZEPTAN_MEMORY, narrow(kind, 0, 3, 8 * NASZEPTAN_MEMORY),
            NASZEPTAN_OPERAND);
    refused(m, NASZEPTAN_MEMORY, narrow(kind, 0, 3, UINT32_MAX - width + 1),
            NASZEPTAN_OPERAND);
    refused(m, NASZEPTAN_LINE, narrow(kind, 0, 32, 0), NASZEPTAN_OPERAND);
    struct naszeptan_event last = narrow(kind, 0, 3, end - width),
                           unused = last;
    CHECK(naszeptan_step(m, memory, NASZEPTAN_LINE, last).answer == 0);
    unused.rb = 1;
    refused(m, NASZEPTAN_LINE, unused, NASZEPTAN_FIELD);
    /* It is neither a TM instruction nor privileged. */
    m.threads[0].control.tm = 0;
    CHECK(naszeptan_step(m, memory, NASZEPTAN_LINE, last).answer == 0);
    m.threads[0].control.tm = 1;
  }
  refused(m, NASZEPTAN_LINE, load(0, 3, 16), NASZEPTAN_OPERAND);
}

/* K33, K34 and K36: conflicts go by the line, whatever bytes are accessed. */
static void conflicts_of_bytes(void) {
  wiped();
  spares(event(NASZEPTAN_TBEGIN, 0));
  spares(narrow(NASZEPTAN_LBZ, 0, 4, 0));
  spares(narrow(NASZEPTAN_STB, 1, 5, 128));
  fails(narrow(NASZEPTAN_STB, 1, 5, 127), NASZEPTAN_DONE, 1);
  CHECK(desk.threads[0].control.texasr == UINT64_C(0x0008000018000001));
  wiped();
  spares(event(NASZEPTAN_TBEGIN, 0));
  stores(NASZEPTAN_STB, 0xFF, 0);
  spares(flagged(NASZEPTAN_TSR, 0));
  loads(NASZEPTAN_LBZ, 0, 0xFF);
  fails(narrow(NASZEPTAN_STB, 0, 3, 9), NASZEPTAN_RECORDED, 1);
  CHECK(desk.threads[0].control.texasr == UINT64_C(0x001000009C000001));
  CHECK(memory[0] == 0 && memory[1] == UINT64_C(0x00FF000000000000));
  /* A lock's word at 0 and a counter at 4. */
  for (int taken = 0; taken < 2; taken++) {
    wiped();
    desk.threads[1].live.gpr[5] = 1;
    spares(event(NASZEPTAN_TBEGIN, 0));
    loads(NASZEPTAN_LWZ, 0, 0);
    loads(NASZEPTAN_LWZ, 4, 0);
    stores(NASZEPTAN_STW, 1, 4);
    if (taken) {
      fails(narrow(NASZEPTAN_STW, 1, 5, 0), NASZEPTAN_DONE, 1);
      CHECK(desk.threads[0].control.texasr == UINT64_C(0x0008000018000001));
    }
    spares(event(NASZEPTAN_TEND, 0));
    CHECK(memory[0] == (taken ? UINT64_C(0x0000000100000000) : 1));
  }
}

/* K35: a full log takes other bytes of its doublewords, and no other one. */
static void a_log_full_of_bytes(void) {
  wiped();
  spares(event(NASZEPTAN_TBEGIN, 0));
  for (uint32_t n = 0; n < NASZEPTAN_PLACES; n++)
    stores(NASZEPTAN_STB, n, 8 * n);
  stores(NASZEPTAN_STB, 0x55, 505);
  CHECK(logged(64, 63, 63, 0xC0, UINT64_C(0x3F55000000000000)));
  fails(narrow(NASZEPTAN_STB, 0, 3, 512), NASZEPTAN_HANDLED, 1);
  CHECK(desk.threads[0].control.texasr == UINT64_C(0x002000001C000001));
}

/* docs/RULES.md, V2 and V15: a used place has some mark, bytes without one are
 * zero, and so are places past the count. */
static void marks(void) {
  wiped();
  spares(event(NASZEPTAN_TBEGIN, 0));
  stores(NASZEPTAN_STB, 0x12, 3);
  CHECK(logged(1, 0, 0, 0x10, UINT64_C(0x0000001200000000)));
  const struct naszeptan_event begin = event(NASZEPTAN_TBEGIN, 1);
  for (int k = 0; k < 8; k++) {
    struct naszeptan_machine m = desk;
    struct naszeptan_entry *place = m.threads[0].transaction.log;
    uint64_t byte = UINT64_C(1) << (56 - 8 * k);
    place->value = byte;
    place->marks = (uint8_t)(0x80 >> k);
    CHECK(naszeptan_valid(m, NASZEPTAN_MEMORY) == NASZEPTAN_DONE);
    place->marks = (uint8_t)~place->marks;
    refused(m, NASZEPTAN_MEMORY, begin, NASZEPTAN_NO_MACHINE);
    place->value = 0;
    CHECK(naszeptan_valid(m, NASZEPTAN_MEMORY) == NASZEPTAN_DONE);
    place->marks = 0;
    refused(m, NASZEPTAN_MEMORY, begin, NASZEPTAN_NO_MACHINE);
    place->marks = NASZEPTAN_ALL_MARKS;
    place->value = byte;
    CHECK(naszeptan_valid(m, NASZEPTAN_MEMORY) == NASZEPTAN_DONE);
    place[1 + k].marks = (uint8_t)(1 << k);
    refused(m, NASZEPTAN_MEMORY, begin, NASZEPTAN_NO_MACHINE);
  }
  wiped();
}

static void narrow_accesses(void) {
  bytes_in_memory();
  bytes_in_the_log();
  addresses();
  conflicts_of_bytes();
  a_log_full_of_bytes();
  marks();
}

/* docs/RULES.md, E0.11: what TS and TM become by the state and TM before (N, 0;
 * N, 1; S, 0; S, 1) and the TS and TM that are asked (N, S, T, no state, each
 * with TM = 0 and 1); 13 is a Bad Thing. */
enum { N0 = 0, N1 = 4, S0 = 1, S1 = 5, T1 = 6, BAD = 13 };
static const uint8_t asked[4][8] = {{N0, N1, BAD, BAD, BAD, BAD, BAD, BAD},
                                    {N0, N1, BAD, BAD, BAD, BAD, BAD, BAD},
                                    {S0, BAD, S0, S1, BAD, T1, BAD, BAD},
                                    {BAD, BAD, S0, S1, BAD, T1, BAD, BAD}};

/* A privileged thread 0 on the desk in the row's state, doomed or not, with
 * SRR1 that asks for these flags. */
static void stands(int row, int doomed, uint8_t flags) {
  begun();
  if (row < 2)
    desk = naszeptan_fresh();
  else
    spares(flagged(NASZEPTAN_TSR, 0));
  if (doomed)
    fails(event(NASZEPTAN_TABORT, 0), NASZEPTAN_RECORDED, 1);
  struct naszeptan_control *k = &desk.threads[0].control;
  k->pr = 0;
  k->tm = (uint8_t)(row & 1);
  k->nia = 0x700;
  k->srr0 = 0x3003;
  k->srr1 = (uint64_t)(flags & 3) << 33 | (uint64_t)(flags >> 2 & 1) << 32 |
            (uint64_t)(flags >> 3) << 14;
}

/* One cell, by this kind. */
static void cell(int row, int doomed, uint8_t kind, uint8_t flags) {
  uint8_t becomes = asked[row][2 * (flags & 3) + (flags >> 2 & 1)];
  struct naszeptan_event e = event(kind, 0);
  e.flags = kind == NASZEPTAN_MTMSRD ? flags : 0;
  stands(row, doomed, flags);
  if (becomes == BAD) {
    refused(desk, NASZEPTAN_MEMORY, e, NASZEPTAN_BAD_THING);
    return;
  }
  uint8_t pr = flags >> 3, tm = becomes >> 2;
  if (doomed && becomes == T1) {
    uint64_t tfhar = desk.threads[0].control.tfhar;
    fails(e, NASZEPTAN_HANDLED, 1);
    CHECK(is_at(NASZEPTAN_N, pr, tm, tfhar) && desk.threads[0].cr0 == 10);
    return;
  }
  static const uint8_t states[] = {NASZEPTAN_N, NASZEPTAN_S, NASZEPTAN_T};
  uint64_t nia = kind == NASZEPTAN_RFID ? 0x3000 : 0x704;
  spares(e);
  CHECK(is_at(states[becomes & 3], pr, tm, nia));
  CHECK(desk.threads[0].control.doomed == doomed);
}

/* Every cell, and T, where both fail whatever is asked. */
static void returns(void) {
  interrupted(0);
  interrupted(1);
  for (uint8_t kind = NASZEPTAN_RFID; kind <= NASZEPTAN_MTMSRD; kind++)
    for (uint8_t flags = 0; flags < 16; flags++) {
      for (int row = 0; row < 4; row++)
        cell(row, 0, kind, flags);
      cell(2, 1, kind, flags);
      cell(3, 1, kind, flags);
      begun();
      struct naszeptan_event e = event(kind, 0);
      e.flags = kind == NASZEPTAN_MTMSRD ? flags : 0;
      fails(e, NASZEPTAN_HANDLED, 1);
      CHECK(desk.threads[0].control.texasr == UINT64_C(0x008000000C000001));
    }
  refused(naszeptan_fresh(), NASZEPTAN_MEMORY, flagged(NASZEPTAN_MTMSRD, 16),
          NASZEPTAN_FIELD);
}

/* The SPRs, by what mfspr gives of a thread whose registers are set. */
static void special_registers(void) {
  struct naszeptan_machine m = naszeptan_fresh();
  struct naszeptan_event e = event(NASZEPTAN_MFSPR, 0);
  m.threads[0].control.tfhar = 0x10;
  m.threads[0].control.tfiar = 0x21;
  m.threads[0].control.texasr = UINT64_C(0x0008000018000001);
  m.threads[0].control.srr0 = 0x1003;
  m.threads[0].control.srr1 = UINT64_MAX;
  static const uint64_t wanted[] = {
      0x10, 0x21, UINT64_C(0x0008000018000001), 0x00080000, 0x1003, UINT64_MAX};
  static const uint8_t numbers[] = {NASZEPTAN_SPR_TFHAR,  NASZEPTAN_SPR_TFIAR,
                                    NASZEPTAN_SPR_TEXASR, NASZEPTAN_SPR_TEXASRU,
                                    NASZEPTAN_SPR_SRR0,   NASZEPTAN_SPR_SRR1};
  for (int n = 0; n < 6; n++) {
    e.x = numbers[n];
    e.ra = 9;
    /* SRR0 and SRR1 are privileged, whatever TM is. */
    if (n >= 4) {
      m.threads[0].control.tm = n == 4;
      m.threads[0].control.pr = 1;
      refused(m, NASZEPTAN_MEMORY, e, NASZEPTAN_PRIVILEGED);
      m.threads[0].control.pr = 0;
    }
    struct naszeptan_done done = naszeptan_step(m, memory, NASZEPTAN_MEMORY, e);
    CHECK(done.machine.threads[0].live.gpr[9] == wanted[n]);
  }
}

static void records(void) {
  uint8_t buffer[17];
  struct naszeptan_event e = store(0, 3, 17), wrong = e;
  /* docs/RULES.md, T5. */
  static const uint8_t example[16] = {0xE3, 0x0D, 0, 0, 3, 0,
                                      0,    0,    0, 0, 0, 0x11};
  memset(buffer, 0xAA, sizeof buffer);
  CHECK(naszeptan_write(e, buffer, 15) == NASZEPTAN_SHORT_BUFFER &&
        buffer[0] == 0xAA);
  wrong.rb = 1;
  CHECK(naszeptan_write(wrong, buffer, 17) == NASZEPTAN_FIELD &&
        buffer[0] == 0xAA);
  wrong.kind = 99;
  CHECK(naszeptan_write(wrong, buffer, 0) == NASZEPTAN_NO_KIND &&
        buffer[0] == 0xAA);
  CHECK(naszeptan_write(e, buffer, 17) == NASZEPTAN_DONE);
  CHECK(memcmp(buffer, example, 16) == 0 && buffer[16] == 0xAA);
  struct naszeptan_record r = naszeptan_read(buffer, 16);
  CHECK(r.answer == 0 && r.event.kind == 13 && r.event.ra == 3 &&
        r.event.index == 17);
  /* A byte address stands where an index does. */
  static const uint8_t lwz[16] = {0xE3, 22, 2, 7, 0, 0, 0, 0, 1, 2, 3, 4};
  static const uint8_t sth[16] = {0xE3, 24, 2, 0, 7, 0, 0, 0, 1, 2, 3, 4};
  for (int n = 0; n < 2; n++) {
    uint8_t kind = n == 0 ? NASZEPTAN_LWZ : NASZEPTAN_STH, record[16];
    e = narrow(kind, 2, 7, UINT32_C(0x01020304));
    CHECK(naszeptan_write(e, record, 16) == NASZEPTAN_DONE);
    CHECK(memcmp(record, n == 0 ? lwz : sth, 16) == 0);
    r = naszeptan_read(record, 16);
    CHECK(r.answer == 0 && r.event.kind == kind && r.event.thread == 2);
    CHECK(r.event.x == e.x && r.event.ra == e.ra && r.event.index == e.index);
  }
  CHECK(naszeptan_read(buffer, 17).answer == NASZEPTAN_TAPE_LENGTH);
  CHECK(naszeptan_read(NULL, 0).answer == NASZEPTAN_TAPE_LENGTH);
  buffer[14] = 1;
  CHECK(naszeptan_read(buffer, 16).answer == NASZEPTAN_FIELD);
  buffer[1] = 0;
  r = naszeptan_read(buffer, 16);
  CHECK(r.answer == NASZEPTAN_NO_KIND && r.event.ra == 0 && r.event.index == 0);
  buffer[0] = 0;
  CHECK(naszeptan_read(buffer, 16).answer == NASZEPTAN_BAD_FIRST_BYTE);
}

/* docs/RULES.md, T5 and T9: std by thread 0 of register 3 to doubleword 17. */
static const uint8_t three[16] = {0xE3, 0x0D, 0, 0, 3, 0, 0, 0, 0, 0, 0, 0x11};
static const uint8_t two[16] = {0, 0x0D, 0, 3, 0, 0, 0, 0, 0x11};

/* The reader of edition two refuses by the number, with an event of zeros. */
static void not_read(const uint8_t *record, size_t bytes, uint8_t number) {
  struct naszeptan_record r = naszeptan_read_two(record, bytes);
  struct naszeptan_event e = r.event;
  CHECK(r.answer == number);
  CHECK(e.kind == 0 && e.thread == 0 && e.x == 0 && e.ra == 0 && e.rb == 0);
  CHECK(e.flags == 0 && e.index == 0 && e.si == 0);
}

static void reader_of_edition_two(void) {
  uint8_t record[17] = {0};
  struct naszeptan_record r = naszeptan_read_two(two, 16);
  CHECK(r.answer == NASZEPTAN_DONE && r.event.kind == NASZEPTAN_STD);
  CHECK(r.event.thread == 0 && r.event.ra == 3 && r.event.index == 17);
  /* The lowest byte comes first. */
  static const uint8_t addi[16] = {3, 14, 1, 2, 0, 0, 0x2A, 1};
  r = naszeptan_read_two(addi, 16);
  CHECK(r.answer == NASZEPTAN_DONE && r.event.thread == 3);
  CHECK(r.event.x == 1 && r.event.ra == 2 && r.event.si == 0x012A);
  /* 6, 7, 8, 9: the first that applies. */
  memcpy(record, two, 16);
  record[15] = 1;
  not_read(record, 16, NASZEPTAN_FIELD);
  record[1] = 18;
  not_read(record, 16, NASZEPTAN_NO_KIND);
  record[0] = 4;
  not_read(record, 16, NASZEPTAN_BAD_FIRST_BYTE);
  not_read(record, 15, NASZEPTAN_TAPE_LENGTH);
  not_read(record, 17, NASZEPTAN_TAPE_LENGTH);
  not_read(NULL, 0, NASZEPTAN_TAPE_LENGTH);
  not_read(three, 16, NASZEPTAN_BAD_FIRST_BYTE);
  CHECK(naszeptan_read(two, 16).answer == NASZEPTAN_BAD_FIRST_BYTE);
}

static void writer_of_edition_two(void) {
  uint8_t buffer[17];
  struct naszeptan_event e = store(0, 3, 17), far = e, unused, none;
  far.thread = 4;
  unused = far;
  unused.rb = 1;
  none = unused;
  none.kind = 27;
  memset(buffer, 0xAA, sizeof buffer);
  for (size_t bytes = 0; bytes <= 17; bytes++) {
    CHECK(naszeptan_write_two(none, buffer, bytes) == NASZEPTAN_NO_KIND);
    CHECK(naszeptan_write_two(unused, buffer, bytes) == NASZEPTAN_FIELD);
    CHECK(naszeptan_write_two(far, buffer, bytes) == NASZEPTAN_NO_THREAD);
    CHECK(bytes >= 16 ||
          naszeptan_write_two(e, buffer, bytes) == NASZEPTAN_SHORT_BUFFER);
    CHECK(kept(buffer, 0, 17));
  }
  CHECK(naszeptan_write_two(e, buffer, 17) == NASZEPTAN_DONE);
  CHECK(memcmp(buffer, two, 16) == 0 && kept(buffer, 16, 17));
  /* Edition two has no kind above 17, and tells the thread first. */
  memset(buffer, 0xAA, sizeof buffer);
  for (uint8_t kind = NASZEPTAN_RFID; kind <= NASZEPTAN_TLBIE; kind++) {
    CHECK(naszeptan_write_two(event(kind, 3), buffer, 17) == NASZEPTAN_NO_KIND);
    CHECK(naszeptan_write_two(event(kind, 3), buffer, 15) == NASZEPTAN_NO_KIND);
    CHECK(naszeptan_write_two(event(kind, 4), buffer, 17) ==
          NASZEPTAN_NO_THREAD);
    CHECK(kept(buffer, 0, 17));
  }
}

typedef struct naszeptan_converted converter(const uint8_t *, size_t, uint8_t *,
                                             size_t);

/* The converter refuses by the number and the index, and the buffer stays. */
static void not_converted(converter *convert, const uint8_t *tape, size_t bytes,
                          size_t room, uint8_t number, size_t index) {
  uint8_t buffer[40];
  memset(buffer, 0xAA, sizeof buffer);
  struct naszeptan_converted c = convert(tape, bytes, buffer, room);
  CHECK(c.answer == number && c.index == index);
  CHECK(kept(buffer, 0, sizeof buffer));
}

/* A converter from the one record to the other. */
static void converts(converter *convert, const uint8_t *from,
                     const uint8_t *to) {
  uint8_t tape[32], buffer[40];
  memcpy(tape, from, 16);
  memcpy(tape + 16, from, 16);
  memset(buffer, 0xAA, sizeof buffer);
  struct naszeptan_converted c = convert(tape, 32, buffer, 40);
  CHECK(c.answer == NASZEPTAN_DONE && c.index == 2);
  CHECK(memcmp(buffer, to, 16) == 0 && memcmp(buffer + 16, to, 16) == 0);
  CHECK(kept(buffer, 32, 40));
  c = convert(NULL, 0, NULL, 0);
  CHECK(c.answer == NASZEPTAN_DONE && c.index == 0);
  /* The wrong edition, at the first record and at the second. */
  not_converted(convert, to, 16, 40, NASZEPTAN_BAD_FIRST_BYTE, 0);
  memcpy(tape + 16, to, 16);
  not_converted(convert, tape, 32, 40, NASZEPTAN_BAD_FIRST_BYTE, 1);
  memcpy(tape + 16, from, 16);
  tape[16 + 15] = 1;
  not_converted(convert, tape, 32, 32, NASZEPTAN_FIELD, 1);
  tape[16 + 1] = 27;
  not_converted(convert, tape, 32, 32, NASZEPTAN_NO_KIND, 1);
  /* 6 comes before 10, and 10 before a record. */
  not_converted(convert, tape, 32, 31, NASZEPTAN_SHORT_BUFFER, 0);
  not_converted(convert, tape, 32, 0, NASZEPTAN_SHORT_BUFFER, 0);
  not_converted(convert, tape, 31, 0, NASZEPTAN_TAPE_LENGTH, 1);
  not_converted(convert, tape, 15, 40, NASZEPTAN_TAPE_LENGTH, 0);
}

static void converters(void) {
  uint8_t tape[16];
  converts(naszeptan_two_to_three, two, three);
  converts(naszeptan_three_to_two, three, two);
  /* Edition two has no thread 4; what else is wrong is told before. */
  memcpy(tape, three, 16);
  tape[2] = 4;
  not_converted(naszeptan_three_to_two, tape, 16, 16, NASZEPTAN_NO_THREAD, 0);
  tape[7] = 1;
  not_converted(naszeptan_three_to_two, tape, 16, 16, NASZEPTAN_FIELD, 0);
  /* Nor has it rfid, or any kind behind that. */
  for (uint8_t kind = NASZEPTAN_RFID; kind <= NASZEPTAN_TLBIE; kind++) {
    CHECK(naszeptan_write(event(kind, 0), tape, 16) == NASZEPTAN_DONE);
    not_converted(naszeptan_three_to_two, tape, 16, 16, NASZEPTAN_NO_KIND, 0);
  }
}

/* What hardware shows for a value, and which bits are free, by a profile. */
static void shows(struct naszeptan_profile p, uint64_t texasr, uint64_t value,
                  uint64_t free) {
  struct naszeptan_shown shown = naszeptan_on_hardware(p, texasr);
  CHECK(shown.answer == NASZEPTAN_DONE);
  CHECK(shown.value == value);
  CHECK((shown.care & free) == 0);
  CHECK((shown.care & UINT64_C(0x0000000041FFF000)) == 0);
  CHECK((shown.care >> 36 & 1) == 1 && shown.care >> 57 == 0x7F);
}

static struct naszeptan_compared against(struct naszeptan_profile p,
                                         uint64_t model, uint64_t hardware) {
  struct naszeptan_failure m = {model, 5, 4, 10}, h = {hardware, 5, 4, 11};
  return naszeptan_compare(p, m, h);
}

static void judges(uint64_t model, uint64_t hardware, uint8_t verdict,
                   uint64_t bits) {
  const struct naszeptan_profile any = NASZEPTAN_ANY_PROCESSOR;
  struct naszeptan_compared said = against(any, model, hardware);
  CHECK(said.answer == NASZEPTAN_DONE);
  CHECK(said.verdict == verdict);
  CHECK(said.texasr == bits);
  CHECK(said.tfiar == 0 && said.tfhar == 0 && said.cr0 == 0);
}

/* No profile, and a value that tells no one cause: 4, and zeros. */
static void not_compared(struct naszeptan_profile p, uint64_t texasr) {
  struct naszeptan_shown shown = naszeptan_on_hardware(p, texasr);
  struct naszeptan_compared said = against(p, texasr, texasr);
  CHECK(shown.answer == NASZEPTAN_OPERAND);
  CHECK(shown.value == 0 && shown.care == 0);
  CHECK(said.answer == NASZEPTAN_OPERAND && said.verdict == 0);
  CHECK(said.texasr == 0 && said.tfiar == 0 && said.tfhar == 0);
  CHECK(said.cr0 == 0);
}

static void profiles(void) {
  const struct naszeptan_profile any = NASZEPTAN_ANY_PROCESSOR;
  struct naszeptan_profile p = any;
  int levels = 0;
  for (p.highest = 0; p.highest < 5000; p.highest++) {
    if (naszeptan_on_hardware(p, 1).answer == NASZEPTAN_DONE)
      levels++;
    else
      not_compared(p, 1);
  }
  CHECK(levels == 9);
  p = any, p.hv = 2, not_compared(p, 1);
  p = any, p.late = 2, not_compared(p, 1);
  p = any, p.nesting = 3, not_compared(p, 1);
  not_compared(any, UINT64_C(0x000C000018000001));
  not_compared(any, UINT64_C(0x0000000018000001));
}

/* K3, K5, K6 and K7 by the Power ISA; HV, bit 7 and the level by the profile;
 * and verdicts, each with its bits. */
static void hardware(void) {
  const struct naszeptan_profile any = NASZEPTAN_ANY_PROCESSOR;
  const struct naszeptan_profile other = {15, 1, 0, 0};
  const uint64_t plain = UINT64_C(0x0008000018000001);
  const uint64_t bit_36 = UINT64_C(1) << 27, bit_31 = UINT64_C(1) << 32;
  struct naszeptan_failure m = {UINT64_C(0x000000011C000001), 5, 4, 10}, h = m;
  struct naszeptan_compared said;
  shows(any, UINT64_C(0x008000000C000002), UINT64_C(0x018000000C000002), 0);
  shows(any, UINT64_C(0x001000009C000001), UINT64_C(0x011000009C000001),
        UINT64_C(0x04000000));
  shows(any, UINT64_C(0x002000000C000001), UINT64_C(0x0120000008000001), 0);
  shows(any, UINT64_C(0x004000001C000FFF), UINT64_C(0x014000001C000FFF),
        UINT64_C(0x0100000000000000));
  shows(other, UINT64_C(0x004000001C000FFF), UINT64_C(0x004000003C00000F),
        UINT64_C(0x0FF0));
  judges(plain, plain, NASZEPTAN_EQUAL, 0);
  judges(plain, 1, NASZEPTAN_ALLOWED, plain & UINT64_C(0x00FFFFFF08000000));
  judges(m.texasr, 1, NASZEPTAN_CONTRADICTS, bit_31 | bit_36);
  judges(1, m.texasr, NASZEPTAN_CONTRADICTS, bit_31 | bit_36);
  judges(plain, m.texasr, NASZEPTAN_ALLOWED, (plain ^ m.texasr) >> 32 << 32);
  judges(plain, plain - 1, NASZEPTAN_CONTRADICTS, 0xFFF);
  judges(1, bit_31 | 1, NASZEPTAN_CONTRADICTS, bit_31);
  h.tfiar = 9, h.tfhar = 6, h.cr0 = 3;
  said = naszeptan_compare(any, m, h);
  CHECK(said.verdict == NASZEPTAN_CONTRADICTS && said.texasr == 0);
  CHECK(said.tfiar == 12 && said.tfhar == 0 && said.cr0 == 8);
  profiles();
}

int main(void) {
  machines();
  bits();
  refusals();
  conflict();
  bad_records();
  sessions();
  failed_itself();
  failed_by_no_commit();
  failed_others();
  fields();
  returns();
  pages();
  narrow_accesses();
  special_registers();
  records();
  reader_of_edition_two();
  writer_of_edition_two();
  converters();
  hardware();
  printf("C host: %d checks passed\n", checks);
  return 0;
}
