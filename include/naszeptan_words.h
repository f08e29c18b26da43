/*
 * Naszeptan: TEXASR in words, for C hosts that show it to people.
 *
 * Beside naszeptan.h it needs snprintf of the C library. The words are those
 * of the Rust crate; c/texasr.txt has examples, to which both are held.
 */
#ifndef NASZEPTAN_WORDS_H
#define NASZEPTAN_WORDS_H

#include <stdio.h>

#include "naszeptan.h"

#ifdef __cplusplus
extern "C" {
#endif

/* Bytes that are enough for the words of any TEXASR and their ending 0. */
#define NASZEPTAN_WORDS 512

/* One cause in words: bits 8:31, the lowest being bit 31; NULL where they are
 * none, several, or one without a name. */
static inline const char *naszeptan_one_cause(unsigned bits) {
  switch (bits) {
  case 0x800000:
    return "disallowed instruction";
  case 0x400000:
    return "nesting overflow";
  case 0x200000:
    return "footprint overflow";
  case 0x100000:
    return "self-induced conflict";
  case 0x080000:
    return "non-transactional conflict";
  case 0x040000:
    return "transaction conflict";
  case 0x020000:
    return "translation invalidation";
  case 0x010000:
    return "implementation-specific";
  case 0x008000:
    return "instruction fetch conflict";
  case 0x000001:
    return "abort";
  default:
    return NULL;
  }
}

/* The cause in words, or NULL where bits 8:31 are none or several. */
static inline const char *naszeptan_cause_words(uint64_t texasr) {
  return naszeptan_one_cause((unsigned)NASZEPTAN_TEXASR_CAUSE(texasr));
}

/* Bits 8:31 where they are not one cause: each that has a name, the highest
 * first, and whether there are others. */
static inline void naszeptan_several_causes(unsigned bits, char *text,
                                            size_t bytes) {
  unsigned bit = 0x800000, others = bits;
  size_t used = 0;
  for (; bit != 0; bit >>= 1) {
    const char *cause = naszeptan_one_cause(bits & bit);
    if (cause == NULL || used >= bytes)
      continue;
    others &= ~bit;
    used += (size_t)snprintf(text + used, bytes - used, "%s%s",
                             used == 0 ? "several causes: " : ", ", cause);
  }
  if (used < bytes)
    snprintf(text + used, bytes - used, "%s (bits 8:31 are 0x%06X)",
             used == 0 ? "no known cause" : (others != 0 ? ", others" : ""),
             bits);
}

/* What Linux means by a failure code: its name in asm/tm.h, or NULL. A code's
 * lowest bit is no part of the name (TM_CAUSE_PERSISTENT). A program may give
 * the same codes by its own tabort. */
static inline const char *naszeptan_linux_code(unsigned code) {
  switch (code & 0xFEu) {
  case 0xE2:
    return "TM_CAUSE_KVM_FAC_UNAV";
  case 0xE0:
    return "TM_CAUSE_KVM_RESCHED";
  case 0xDE:
    return "TM_CAUSE_RESCHED";
  case 0xDC:
    return "TM_CAUSE_TLBI";
  case 0xDA:
    return "TM_CAUSE_FAC_UNAV";
  case 0xD8:
    return "TM_CAUSE_SYSCALL";
  case 0xD6:
    return "TM_CAUSE_MISC";
  case 0xD4:
    return "TM_CAUSE_SIGNAL";
  case 0xD2:
    return "TM_CAUSE_ALIGNMENT";
  case 0xD0:
    return "TM_CAUSE_EMULATE";
  default:
    return NULL;
  }
}

/* The failure, bits 0:38 and TL, where FS = 1. Gives what snprintf gives. */
static inline int naszeptan_failure_words(uint64_t texasr, char *text,
                                          size_t bytes) {
  const char *cause = naszeptan_cause_words(texasr);
  unsigned code = (unsigned)NASZEPTAN_TEXASR_CODE(texasr);
  const char *name = naszeptan_linux_code(code);
  int lasts = NASZEPTAN_TEXASR_PERSISTENT(texasr) != 0;
  char bits[320] = "no cause";
  if (cause == NULL && NASZEPTAN_TEXASR_CAUSE(texasr) != 0)
    naszeptan_several_causes((unsigned)NASZEPTAN_TEXASR_CAUSE(texasr), bits,
                             sizeof bits);
  return snprintf(
      text, bytes,
      "%s, level %u, exact=%u, suspended=%u%s, PR=%u, ROT=%u, code 0x%02X"
      "%s%s%s%s%s",
      cause != NULL ? cause : bits, (unsigned)NASZEPTAN_TEXASR_LEVEL(texasr),
      (unsigned)NASZEPTAN_TEXASR_EXACT(texasr),
      (unsigned)NASZEPTAN_TEXASR_SUSPENDED(texasr),
      NASZEPTAN_TEXASR_HV(texasr) ? ", HV=1" : "",
      (unsigned)NASZEPTAN_TEXASR_PR(texasr),
      (unsigned)NASZEPTAN_TEXASR_ROT(texasr), code,
      name != NULL || lasts ? " (" : "", name != NULL ? "Linux: " : "",
      name != NULL ? name : "",
      !lasts ? "" : (name != NULL ? ", persistent" : "persistent"),
      name != NULL || lasts ? ")" : "");
}

/* TEXASR in one line of words, ended by 0, as much of it as bytes allow;
 * NASZEPTAN_WORDS bytes are enough. Gives text. Bits that are told by no word
 * are named as they stand. */
static inline char *naszeptan_texasr_words(uint64_t texasr, char *text,
                                           size_t bytes) {
  char whole[NASZEPTAN_WORDS];
  uint64_t told = UINT64_C(0x02000FFF);
  int used = 0;
  size_t n = 0;
  if (NASZEPTAN_TEXASR_FAILED(texasr)) {
    told = UINT64_C(0xFFFFFFFFBE000FFF);
    used = naszeptan_failure_words(texasr, whole, sizeof whole);
  } else {
    used = snprintf(whole, sizeof whole, "no failure, level %u, ROT=%u",
                    (unsigned)NASZEPTAN_TEXASR_LEVEL(texasr),
                    (unsigned)NASZEPTAN_TEXASR_ROT(texasr));
  }
  if ((texasr & ~told) != 0 && used >= 0 && used <= NASZEPTAN_WORDS - 32)
    snprintf(whole + used, sizeof whole - (size_t)used,
             ", other bits 0x%016llX", (unsigned long long)(texasr & ~told));
  /* Copied here: snprintf into a short buffer would be warned of. */
  for (; n + 1 < bytes && whole[n] != '\0'; n++)
    text[n] = whole[n];
  if (bytes > 0)
    text[n] = '\0';
  return text;
}

#ifdef __cplusplus
}
#endif

#endif
