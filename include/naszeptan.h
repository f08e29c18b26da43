/*
 * Naszeptan: a model of POWER's transactional memory, for C hosts.
 *
 * Link target/staticlib/libhost.a. It is code for x86-64 Linux and needs
 * nothing but memcpy, memmove and memset of the C library. It keeps no state,
 * prints nothing and allocates nothing: the machine (6,760 bytes), or a session
 * with one (6,792 bytes), is passed and given back by value; memory, tapes and
 * buffers are lent by pointer and length. Calls from several threads at once
 * are fine where they lend different memory. Leave a call 256 KB of stack.
 *
 * Any bits may be handed in. The one thing that a caller must keep: a pointer
 * with its length names that many elements which the call may read (and, if
 * not const, write) and which no one else touches meanwhile. Where the length
 * is 0 the pointer is not used.
 *
 * Each call that can refuse gives a number of the table below. A step, a
 * reader, a writer or a converter that refuses changes nothing, and neither
 * does a run that is refused by 1, 2, 6, 7, 8 or 9: the machine given back is
 * the one handed in, bit for bit but for padding, and memory or buffer stay as
 * they were. A run that stops at an event keeps what the events before it did;
 * the event that stopped it has changed nothing. A session that stops, at an
 * event or at a record that is none, does the same.
 */
#ifndef NASZEPTAN_H
#define NASZEPTAN_H

#include <stddef.h>
#include <stdint.h>

#ifdef __cplusplus
extern "C" {
#endif

/* The version of the rules that this header was written for: the model's
 * version in the upper 16 bits, the change requests that have landed in the
 * lower. naszeptan_version() gives the archive's. */
#define NASZEPTAN_VERSION UINT32_C(0x0004000A)

/* Sizes. */
#define NASZEPTAN_THREADS 4        /* thread records of a machine */
#define NASZEPTAN_GPRS 32          /* general registers */
#define NASZEPTAN_CR_FIELDS 7      /* CR fields 1 to 7; CR0 stands apart */
#define NASZEPTAN_LINE_WORDS 4     /* words of a line set: 256 lines */
#define NASZEPTAN_LINE 16          /* doublewords of a line */
#define NASZEPTAN_PAGE 32          /* lines of a page */
#define NASZEPTAN_MEMORY 4096      /* doublewords of the largest memory */
#define NASZEPTAN_PLACES 64        /* places of a transaction's log */
#define NASZEPTAN_ALL_MARKS 0xFF   /* the marks of a whole doubleword */
#define NASZEPTAN_LEVELS 4095      /* the highest level of a transaction */
#define NASZEPTAN_RECORD_SIZE 16   /* bytes of a tape record */
#define NASZEPTAN_FIRST_BYTE 0xE3  /* first byte of a record, edition three */
#define NASZEPTAN_HELD 15          /* most bytes that a session holds */

/* The numbers given back. A run goes on after 0, 20 and 21. */
enum naszeptan_answer {
  NASZEPTAN_DONE = 0,          /* done */
  NASZEPTAN_SIZE = 1,          /* memory length or thread count */
  NASZEPTAN_NO_MACHINE = 2,    /* not a valid machine, or no session */
  NASZEPTAN_NO_THREAD = 3,     /* the event's thread is not below the count */
  NASZEPTAN_OPERAND = 4,       /* register, BF, TO, SPR, index, address or page
                                  out of range; an address that is no multiple
                                  of the access's width */
  NASZEPTAN_HOST_IN_T = 5,     /* the host event on a Transactional thread */
  NASZEPTAN_TAPE_LENGTH = 6,   /* tape not a multiple of 16 bytes */
  NASZEPTAN_BAD_FIRST_BYTE = 7,/* a record's first byte is not 0xE3; edition two:
                                  above 3 */
  NASZEPTAN_NO_KIND = 8,       /* kind not 1 to 26; edition two: not 1 to 17 */
  NASZEPTAN_FIELD = 9,         /* an unused field or a fixed byte is not 0, or
                                  flags too big */
  NASZEPTAN_SHORT_BUFFER = 10, /* the writer's buffer has under 16 bytes */
  NASZEPTAN_FACILITY_OFF = 11, /* a TM instruction with TM = 0 */
  NASZEPTAN_PRIVILEGED = 12,   /* a privileged instruction in problem state */
  NASZEPTAN_BAD_THING = 13,    /* TM Bad Thing */
  NASZEPTAN_HANDLED = 20,      /* done; handled a failure of its own thread */
  NASZEPTAN_RECORDED = 21      /* done; recorded a failure of its own thread
                                  in Suspended state */
};

/* A thread's state, as control.state has it. */
enum naszeptan_state {
  NASZEPTAN_N = 0, /* Non-transactional */
  NASZEPTAN_T = 1, /* Transactional */
  NASZEPTAN_S = 2  /* Suspended */
};

/* The twenty-six kinds of event, and the fields that each uses. A field that
 * its kind does not use must be 0.
 *
 * ld and std name a doubleword by its index. Kinds 20 to 25 name bytes: their
 * index is a byte address, a multiple of the width, 1, 2 or 4, and below 8 times
 * the memory's length; else 4. Byte 0 of a doubleword is its highest: address a
 * is byte a % 8 of doubleword a / 8, so memory[a / 8] >> (56 - a % 8 * 8) & 0xFF.
 * These loads make the rest of the register 0, these stores take its low bytes.
 * Edition two has none of the six. */
enum naszeptan_kind {
  NASZEPTAN_TBEGIN = 1,     /* flags: R */
  NASZEPTAN_TEND = 2,       /* flags: A */
  NASZEPTAN_TABORT = 3,     /* ra */
  NASZEPTAN_TABORTWC = 4,   /* x: TO, ra, rb */
  NASZEPTAN_TABORTDC = 5,   /* x: TO, ra, rb */
  NASZEPTAN_TSR = 6,        /* flags: L (1 resumes, 0 suspends) */
  NASZEPTAN_TCHECK = 7,     /* x: BF */
  NASZEPTAN_TRECLAIM = 8,   /* ra */
  NASZEPTAN_TRECHKPT = 9,   /* none */
  NASZEPTAN_MTSPR = 10,     /* x: SPR, ra */
  NASZEPTAN_MFSPR = 11,     /* x: SPR, ra: the target RT */
  NASZEPTAN_LD = 12,        /* x: RT, index */
  NASZEPTAN_STD = 13,       /* ra, index */
  NASZEPTAN_ADDI = 14,      /* x: RT, ra, si */
  NASZEPTAN_DISALLOWED = 15,/* none: any disallowed instruction */
  NASZEPTAN_INTERRUPT = 16, /* none */
  NASZEPTAN_HOST = 17,      /* flags: PR + 2 * TM */
  NASZEPTAN_RFID = 18,      /* none: SRR1 asks */
  NASZEPTAN_MTMSRD = 19,    /* flags: TS + 4 * TM + 8 * PR */
  NASZEPTAN_LBZ = 20,       /* x: RT, index: the address of a byte */
  NASZEPTAN_LHZ = 21,       /* x: RT, index: the address of two bytes */
  NASZEPTAN_LWZ = 22,       /* x: RT, index: the address of four bytes */
  NASZEPTAN_STB = 23,       /* ra, index: the address of a byte */
  NASZEPTAN_STH = 24,       /* ra, index: the address of two bytes */
  NASZEPTAN_STW = 25,       /* ra, index: the address of four bytes */
  NASZEPTAN_TLBIE = 26      /* index: the page, of NASZEPTAN_PAGE lines */
};

/* TS, by which rfid and mtmsrd ask for a state, has the MSR's numbers, which
 * are not those of enum naszeptan_state; 3 is no state. */
#define NASZEPTAN_TS_N 0
#define NASZEPTAN_TS_S 1
#define NASZEPTAN_TS_T 2

/* The SPRs that mtspr and mfspr know, for the event's x. SRR0 and SRR1 are
 * privileged, and no part of the facility. */
#define NASZEPTAN_SPR_SRR0 26
#define NASZEPTAN_SPR_SRR1 27
#define NASZEPTAN_SPR_TFHAR 128
#define NASZEPTAN_SPR_TFIAR 129
#define NASZEPTAN_SPR_TEXASR 130
#define NASZEPTAN_SPR_TEXASRU 131 /* TEXASR's upper half */

/* What SRR1 keeps of the machine state, by docs/RULES.md, M15. Each macro takes
 * the 64 bits and gives the field as a number; the other bits mean nothing. */
#define NASZEPTAN_SRR1_TS(srr1) ((uint64_t)(srr1) >> 33 & 3) /* bits 29:30 */
#define NASZEPTAN_SRR1_TM(srr1) ((uint64_t)(srr1) >> 32 & 1) /* bit 31 */
#define NASZEPTAN_SRR1_PR(srr1) ((uint64_t)(srr1) >> 14 & 1) /* bit 49 */

/* The fields of TEXASR, by docs/RULES.md, X2. Each macro takes the 64 bits and
 * gives the field as a number, a flag as 0 or 1. Beside each stands the macro
 * for it in gcc's htmintrin.h, which takes the same bits (its _TEXASRU_ ones
 * take the upper half, as SPR 131 gives it). The model never sets HV, nor the
 * two fields that are marked; hardware may.
 * naszeptan_words.h tells all of this in words. */
#define NASZEPTAN_TEXASR_FIELD(texasr, last, size) \
  ((uint64_t)(texasr) >> (63 - (last)) & ((UINT64_C(1) << (size)) - 1))

/* 0:7, _TEXASR_FAILURE_CODE */
#define NASZEPTAN_TEXASR_CODE(texasr) NASZEPTAN_TEXASR_FIELD(texasr, 7, 8)
/* 7, _TEXASR_FAILURE_PERSISTENT: see naszeptan_persistent_by_isa below */
#define NASZEPTAN_TEXASR_PERSISTENT(texasr) NASZEPTAN_TEXASR_FIELD(texasr, 7, 1)
/* 8, _TEXASR_DISALLOWED */
#define NASZEPTAN_TEXASR_DISALLOWED(texasr) NASZEPTAN_TEXASR_FIELD(texasr, 8, 1)
/* 9, _TEXASR_NESTING_OVERFLOW */
#define NASZEPTAN_TEXASR_NESTING_OVERFLOW(texasr) \
  NASZEPTAN_TEXASR_FIELD(texasr, 9, 1)
/* 10, _TEXASR_FOOTPRINT_OVERFLOW */
#define NASZEPTAN_TEXASR_FOOTPRINT_OVERFLOW(texasr) \
  NASZEPTAN_TEXASR_FIELD(texasr, 10, 1)
/* 11, _TEXASR_SELF_INDUCED_CONFLICT */
#define NASZEPTAN_TEXASR_SELF_INDUCED_CONFLICT(texasr) \
  NASZEPTAN_TEXASR_FIELD(texasr, 11, 1)
/* 12, _TEXASR_NON_TRANSACTIONAL_CONFLICT */
#define NASZEPTAN_TEXASR_NON_TRANSACTIONAL_CONFLICT(texasr) \
  NASZEPTAN_TEXASR_FIELD(texasr, 12, 1)
/* 13, _TEXASR_TRANSACTION_CONFLICT */
#define NASZEPTAN_TEXASR_TRANSACTION_CONFLICT(texasr) \
  NASZEPTAN_TEXASR_FIELD(texasr, 13, 1)
/* 14, _TEXASR_TRANSLATION_INVALIDATION_CONFLICT: a tlbie, another thread's or
 * the thread's own in Suspended state, for which EXACT is 0 too */
#define NASZEPTAN_TEXASR_TRANSLATION_INVALIDATION(texasr) \
  NASZEPTAN_TEXASR_FIELD(texasr, 14, 1)
/* 15, _TEXASR_IMPLEMENTAION_SPECIFIC (so spelled): of the Power ISA alone */
#define NASZEPTAN_TEXASR_IMPLEMENTATION_SPECIFIC(texasr) \
  NASZEPTAN_TEXASR_FIELD(texasr, 15, 1)
/* 16, _TEXASR_INSTRUCTION_FETCH_CONFLICT: of the Power ISA alone */
#define NASZEPTAN_TEXASR_INSTRUCTION_FETCH_CONFLICT(texasr) \
  NASZEPTAN_TEXASR_FIELD(texasr, 16, 1)
/* 31, _TEXASR_ABORT */
#define NASZEPTAN_TEXASR_ABORT(texasr) NASZEPTAN_TEXASR_FIELD(texasr, 31, 1)
/* 32, _TEXASR_SUSPENDED */
#define NASZEPTAN_TEXASR_SUSPENDED(texasr) NASZEPTAN_TEXASR_FIELD(texasr, 32, 1)
/* 34 and 35 are HV and PR, _TEXASR_PRIVILEGE both in one */
#define NASZEPTAN_TEXASR_PRIVILEGE(texasr) NASZEPTAN_TEXASR_FIELD(texasr, 35, 2)
#define NASZEPTAN_TEXASR_HV(texasr) NASZEPTAN_TEXASR_FIELD(texasr, 34, 1)
#define NASZEPTAN_TEXASR_PR(texasr) NASZEPTAN_TEXASR_FIELD(texasr, 35, 1)
/* 36, FS, _TEXASR_FAILURE_SUMMARY: a failure is recorded */
#define NASZEPTAN_TEXASR_FAILED(texasr) NASZEPTAN_TEXASR_FIELD(texasr, 36, 1)
/* 37, _TEXASR_TFIAR_EXACT */
#define NASZEPTAN_TEXASR_EXACT(texasr) NASZEPTAN_TEXASR_FIELD(texasr, 37, 1)
/* 38, _TEXASR_ROT */
#define NASZEPTAN_TEXASR_ROT(texasr) NASZEPTAN_TEXASR_FIELD(texasr, 38, 1)
/* 52:63, TL, _TEXASR_TRANSACTION_LEVEL */
#define NASZEPTAN_TEXASR_LEVEL(texasr) NASZEPTAN_TEXASR_FIELD(texasr, 63, 12)
/* 8:31, in which the Power ISA sets just one bit */
#define NASZEPTAN_TEXASR_CAUSE(texasr) NASZEPTAN_TEXASR_FIELD(texasr, 31, 24)

/* What the Power ISA puts into bit 7 for this cause, 0 or 1 (8.4.2, bit 7): 1
 * for the causes of bits 8 to 11; for an abort what the program gave; 0 for
 * any other. Here bit 7 is 0 for the causes of bits 8 to 11 (rule X5), and a
 * retry that trusts it tries for ever what can not succeed. Where bits 8:31
 * are not one cause it is bit 7 as it stands. docs/DECISIONS.md has why
 * nesting overflow counts. */
static inline int naszeptan_persistent_by_isa(uint64_t texasr) {
  switch (NASZEPTAN_TEXASR_CAUSE(texasr)) {
  case 0x800000: /* disallowed */
  case 0x400000: /* nesting overflow */
  case 0x200000: /* footprint overflow */
  case 0x100000: /* self-induced conflict */
    return 1;
  case 0x080000: /* non-transactional conflict */
  case 0x040000: /* transaction conflict */
  case 0x020000: /* translation invalidation */
  case 0x010000: /* implementation-specific */
  case 0x008000: /* instruction fetch conflict */
    return 0;
  default:
    return (int)NASZEPTAN_TEXASR_PERSISTENT(texasr);
  }
}

/* The registers that a checkpoint keeps. cr[n - 1] is CR field n. */
struct naszeptan_registers {
  uint64_t gpr[NASZEPTAN_GPRS];
  uint8_t cr[NASZEPTAN_CR_FIELDS];
};

/* A set of lines: line l is bit l % 64 of words[l / 64], bit 0 the lowest. */
struct naszeptan_lines {
  uint64_t words[NASZEPTAN_LINE_WORDS];
};

/* A place of the log: a doubleword that was stored to, by its index in memory;
 * which of its bytes were stored; and those bytes, where they stand in it. Byte
 * k, of which 0 is the highest, has the mark 0x80 >> k: 0x80 is byte 0 alone,
 * 0x0F the bytes 4 to 7, NASZEPTAN_ALL_MARKS all eight, as std stores them. A
 * commit changes the marked bytes of memory and no others. A used place has some
 * mark, and the bytes of value without one are 0 (docs/RULES.md, V15). */
struct naszeptan_entry {
  uint32_t index;
  uint8_t marks;
  uint64_t value;
};

/* What a transaction has read and written. Places past count are 0. */
struct naszeptan_transaction {
  struct naszeptan_lines reads;
  struct naszeptan_lines writes;
  size_t count;
  struct naszeptan_entry log[NASZEPTAN_PLACES];
};

/* pr, tm and doomed are 0 or 1; state is an enum naszeptan_state. Other
 * values are no machine. TEXASR's bit 0 is the highest of the 64. An interrupt
 * saves NIA in srr0 and TS, TM and PR in srr1; rfid goes back to them. */
struct naszeptan_control {
  uint64_t nia;
  uint8_t pr;
  uint8_t tm;
  uint8_t state;
  uint8_t doomed;
  uint64_t tfhar;
  uint64_t tfiar;
  uint64_t texasr;
  uint64_t srr0;
  uint64_t srr1;
};

struct naszeptan_thread {
  struct naszeptan_registers live;
  uint8_t cr0;
  struct naszeptan_registers checkpoint;
  struct naszeptan_control control;
  struct naszeptan_transaction transaction;
};

/* The first count of the thread records are the machine's threads. */
struct naszeptan_machine {
  size_t count;
  struct naszeptan_thread threads[NASZEPTAN_THREADS];
};

/* One event and the thread that executes it. kind is an enum naszeptan_kind,
 * which says what the other fields mean. */
struct naszeptan_event {
  uint8_t kind;
  uint8_t thread;
  uint8_t x;
  uint8_t ra;
  uint8_t rb;
  uint8_t flags;
  uint32_t index;
  uint16_t si;
};

/* A step's answer, which threads failed in its event, and the machine after
 * it. Bit v of failed, counted from the lowest (failed >> v & 1), stands for
 * thread v, by docs/RULES.md, H8. It is 1
 * - for the event's own thread where the answer is 20, and
 * - for each thread that had a live transaction before the event and has none
 *   after it, unless the event is that thread's own tend., which commits.
 * All other bits are 0, and a refused event has failed == 0. A transaction is
 * live in T, and in S with doomed == 0.
 *
 * So failed tells of other threads too, of which the answer says nothing: a
 * store may answer 0 and have failed three. A failure recorded in S is told
 * then, and every tresume, rfid and mtmsrd that handles is told. treclaim. of a
 * live transaction is told; of a doomed one it is not, since it records
 * nothing. */
struct naszeptan_done {
  uint8_t answer;
  uint8_t failed;
  struct naszeptan_machine machine;
};

/* The answer that ended a run (0 at the tape's end), how many records were
 * done, the index of the record that the answer is about, and the machine after
 * exactly the records done. For 7, 8 and 9 the index is that of the first bad
 * record, for 6 the number of whole records, for 1 and 2 it is 0; nothing was
 * run then, and count is 0. Else it is count. For the close of a session see
 * naszeptan_close. */
struct naszeptan_ended {
  uint8_t answer;
  size_t count;
  size_t index;
  struct naszeptan_machine machine;
};

/* A reader's answer: 0 and the event, or 6 to 9 and an event of zeros. */
struct naszeptan_record {
  uint8_t answer;
  struct naszeptan_event event;
};

/* The version of the rules that the archive keeps; compare it with
 * NASZEPTAN_VERSION. */
uint32_t naszeptan_version(void);

/* The fresh machine: four threads, Non-transactional, PR = 1, TM = 1, all
 * else 0. Its memory is yours to lend: 4,096 doublewords of 0. */
struct naszeptan_machine naszeptan_fresh(void);

/* Whether these bits are a machine over a memory of len doublewords: 0, or 1
 * (memory length or thread count), or 2 (not a valid machine). What is valid
 * is in docs/RULES.md, V1 to V15; a machine that a call gave back is valid if
 * the one handed in was. */
uint8_t naszeptan_valid(struct naszeptan_machine machine, size_t len);

/* One event. Refused by 1, 2, 8, 9, 3, 4, 5, 11, 12, 13: the first that
 * applies in this order. What is given back also tells which threads failed,
 * the event's own or others: see struct naszeptan_done. A run does not tell it. */
struct naszeptan_done naszeptan_step(struct naszeptan_machine machine,
                                     uint64_t *memory, size_t len,
                                     struct naszeptan_event event);

/* A tape. Refused as a whole, and nothing of it run, by 1, 2 and 6, also where
 * it is empty, and then by 7, 8 or 9 of the first record that one of these
 * applies to. Else its events are done, one after another, until one is refused
 * or the tape ends. */
struct naszeptan_ended naszeptan_run(struct naszeptan_machine machine,
                                     uint64_t *memory, size_t len,
                                     const uint8_t *tape, size_t bytes);

/* A tape in pieces, cut at any byte (docs/RULES.md, Q1 to Q9 and H10). Open a
 * session, feed it piece after piece, each time with the session that the last
 * feeding gave back, and close it. Over any cutting the answers, the count, the
 * machine and the memory are the same. */

/* What the caller keeps between two pieces (Q1). It is a session over a memory
 * (Q2) where the machine is valid over it; held is at most 15, and the bytes at
 * and past it are 0; and the answer is 0, or 3, 4, 5, 7, 8, 9, 11, 12 or 13 with
 * held 0. Any other bits are refused by 2, or by 1 where memory length or thread
 * count is wrong. */
struct naszeptan_session {
  struct naszeptan_machine machine; /* after exactly the records done */
  uint64_t count;                   /* records done, modulo 2^64 */
  size_t held;                      /* bytes held of an unfinished record */
  uint8_t answer;                   /* 0, or the number that stopped it */
  uint8_t bytes[NASZEPTAN_HELD];    /* the held bytes, then zeros */
};

/* What feeding a piece gives. */
struct naszeptan_fed {
  uint8_t answer;   /* the session's, or 1 or 2 where it was refused */
  size_t finished;  /* records that this piece finished, the stopping one among
                       them */
  struct naszeptan_session session; /* the next one */
};

/* A session on this machine over a memory of len doublewords (Q3): nothing held,
 * count 0, answer 0. Refused by 1 and 2: the answer is then that number, so that
 * it is no session and each call with it is refused. */
struct naszeptan_session naszeptan_open(struct naszeptan_machine machine,
                                        size_t len);

/* The next piece, of any number of bytes (Q4 to Q7). The held bytes and these,
 * joined, are cut into records. Each is read by 7, 8 and 9 and done before the
 * next is looked at; fewer than 16 bytes remain and are held. A record's answer
 * goes to the lent answers, the first that this piece finished to place 0, as
 * far as there is room: (held + bytes) / 16 places are enough. Any answer but 0,
 * 20 and 21 stops the session. Once it has stopped, pieces change nothing and
 * finish nothing. Refused by 1 and 2: session, memory and answers then stay as
 * they were. Memory, piece and answers must not overlap. */
struct naszeptan_fed naszeptan_feed(struct naszeptan_session session,
                                    uint64_t *memory, size_t len,
                                    const uint8_t *piece, size_t bytes,
                                    uint8_t *answers, size_t room);

/* How the tape ended, if no piece follows (Q8): the session's answer if it has
 * stopped, else 6 if bytes are held, else 0; the count, as index too; and the
 * machine. Refused by 1 and 2, with count and index 0. */
struct naszeptan_ended naszeptan_close(struct naszeptan_session session,
                                       size_t len);

/* One record of 16 bytes as an event. Refused by 6, 7, 8, 9 in this order. */
struct naszeptan_record naszeptan_read(const uint8_t *record, size_t bytes);

/* One event as a record, in the buffer's first 16 bytes. Refused by 8, 9, 10
 * in this order. */
uint8_t naszeptan_write(struct naszeptan_event event,
                        uint8_t *buffer, size_t bytes);

/* Tapes of edition two (docs/RULES.md, T8 to T13). All calls above are of
 * edition three; nothing guesses an edition. */

/* One record of edition two as an event. Refused by 6, 7, 8, 9 in this order;
 * 7 is a first byte, the thread, above 3. */
struct naszeptan_record naszeptan_read_two(const uint8_t *record, size_t bytes);

/* One event as a record of edition two, in the buffer's first 16 bytes.
 * Refused by 8 and 9 (no event), 3 (a thread above 3), 8 (a kind above 17) and
 * 10 in this order. */
uint8_t naszeptan_write_two(struct naszeptan_event event,
                            uint8_t *buffer, size_t bytes);

/* What a converter answers. 0: all records are converted, and index is their
 * number. 6: index is the number of whole records. 10: the buffer is shorter
 * than the tape, and index is 0. Any other number is that of a record, the
 * first that is refused, and index is its own, from 0. */
struct naszeptan_converted {
  uint8_t answer;
  size_t index;
};

/* A tape of edition two as one of edition three, and back. The buffer is
 * written only where the answer is 0, and only its first bytes, as many as the
 * tape has. Tape and buffer must not overlap. */
struct naszeptan_converted naszeptan_two_to_three(const uint8_t *tape,
                                                  size_t bytes,
                                                  uint8_t *buffer,
                                                  size_t room);
struct naszeptan_converted naszeptan_three_to_two(const uint8_t *tape,
                                                  size_t bytes,
                                                  uint8_t *buffer,
                                                  size_t room);

/* A failure beside a POWER processor's (docs/RULES.md, B1 to B9). The calls are
 * on registers alone; any bits may be handed in. */

/* What is known of the processor. */
struct naszeptan_profile {
  uint64_t highest; /* the highest level: 15, 31, 63 and so on to 4095 */
  uint8_t hv;       /* 0 or 1: HV while the program runs */
  uint8_t late;     /* 0 or 1: imprecise failures may be recorded late */
  uint8_t nesting;  /* bit 7 of a nesting overflow: 0, 1, or 2 for free */
};

#define NASZEPTAN_NESTING_FREE 2

/* The profile of which nothing is known but that there is no hypervisor, as an
 * initializer. */
#define NASZEPTAN_ANY_PROCESSOR \
  { NASZEPTAN_LEVELS, 0, 1, NASZEPTAN_NESTING_FREE }

/* What hardware shows for a TEXASR of the model. Bits that are 0 in care are
 * free: the Power ISA does not fix them. */
struct naszeptan_shown {
  uint8_t answer; /* 0; or 4: no profile, or FS = 1 without exactly one cause */
  uint64_t value;
  uint64_t care;
};

/* What a failure handler reads. */
struct naszeptan_failure {
  uint64_t texasr;
  uint64_t tfiar;
  uint64_t tfhar;
  uint8_t cr0;
};

enum naszeptan_verdict {
  NASZEPTAN_EQUAL = 0,      /* as the Power ISA asks for this failure */
  NASZEPTAN_ALLOWED = 1,    /* otherwise, as the Power ISA allows */
  NASZEPTAN_CONTRADICTS = 2 /* it contradicts the Power ISA, or the tape */
};

/* A verdict, an enum naszeptan_verdict, and the bits that decide it. The bits
 * of TFIAR, TFHAR and CR0 are 0 unless both failed by the same cause. */
struct naszeptan_compared {
  uint8_t answer; /* 0; or 4, and zeros: as for struct naszeptan_shown */
  uint8_t verdict;
  uint8_t cr0;
  uint64_t texasr;
  uint64_t tfiar;
  uint64_t tfhar;
};

struct naszeptan_shown naszeptan_on_hardware(struct naszeptan_profile profile,
                                             uint64_t texasr);

/* The registers read on hardware against the model's. FS = 0 in either stands
 * for a transaction that went on. */
struct naszeptan_compared naszeptan_compare(struct naszeptan_profile profile,
                                            struct naszeptan_failure model,
                                            struct naszeptan_failure hardware);

#ifdef __cplusplus
}
#endif

#endif
