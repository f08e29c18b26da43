/* A POWER program that begins a transaction and reads what its failure left:
 * one line for ./naszeptan report --against. Its tbegin. counts as address 0,
 * as on a fresh machine. It also holds the header's macros to gcc's: tools/test-peer
 * compiles it for ppc64le. */
#include <htmintrin.h>
#include <stdio.h>

#include "naszeptan.h"

#define SAME(ours, gcc, texasr) (NASZEPTAN_TEXASR_##ours(texasr) == gcc(texasr))

/* Each field of the header by gcc's macro. */
static int same_fields(uint64_t t) {
  return SAME(CODE, _TEXASR_FAILURE_CODE, t) &&
         SAME(PERSISTENT, _TEXASR_FAILURE_PERSISTENT, t) &&
         SAME(DISALLOWED, _TEXASR_DISALLOWED, t) &&
         SAME(NESTING_OVERFLOW, _TEXASR_NESTING_OVERFLOW, t) &&
         SAME(FOOTPRINT_OVERFLOW, _TEXASR_FOOTPRINT_OVERFLOW, t) &&
         SAME(SELF_INDUCED_CONFLICT, _TEXASR_SELF_INDUCED_CONFLICT, t) &&
         SAME(NON_TRANSACTIONAL_CONFLICT, _TEXASR_NON_TRANSACTIONAL_CONFLICT,
              t) &&
         SAME(TRANSACTION_CONFLICT, _TEXASR_TRANSACTION_CONFLICT, t) &&
         SAME(TRANSLATION_INVALIDATION,
              _TEXASR_TRANSLATION_INVALIDATION_CONFLICT, t) &&
         SAME(IMPLEMENTATION_SPECIFIC, _TEXASR_IMPLEMENTAION_SPECIFIC, t) &&
         SAME(INSTRUCTION_FETCH_CONFLICT, _TEXASR_INSTRUCTION_FETCH_CONFLICT,
              t) &&
         SAME(ABORT, _TEXASR_ABORT, t) && SAME(SUSPENDED, _TEXASR_SUSPENDED, t) &&
         SAME(PRIVILEGE, _TEXASR_PRIVILEGE, t) &&
         SAME(FAILED, _TEXASR_FAILURE_SUMMARY, t) &&
         SAME(EXACT, _TEXASR_TFIAR_EXACT, t) && SAME(ROT, _TEXASR_ROT, t) &&
         SAME(LEVEL, _TEXASR_TRANSACTION_LEVEL, t);
}

int main(void) {
  unsigned long cr, start, texasr, tfiar, tfhar;
  /* Behind a branch: the emulator takes the start of the block that it runs
   * for the address of tbegin. Where that succeeds, tabort. ends it. */
  __asm__ volatile("bl 1f\n1:\tmflr %1\n\taddi %1, %1, 2f-1b\n\tb 2f\n"
                   "2:\ttbegin. 0\n\tbeq 3f\n\ttabort. 0\n3:\tmfcr %0"
                   : "=r"(cr), "=b"(start)
                   :
                   : "lr", "cr0", "memory");
  texasr = __builtin_get_texasr();
  tfiar = __builtin_get_tfiar();
  tfhar = __builtin_get_tfhar();
  for (int n = 0; n < 64; n++)
    if (!same_fields(UINT64_C(1) << n))
      return 1;
  if (!same_fields(texasr))
    return 1;
  cr >>= 28;
  printf("0 0x%016lX 0x%lX 0x%lX %lu%lu%lu%lu\n", texasr, tfiar - start,
         tfhar - start, cr >> 3 & 1, cr >> 2 & 1, cr >> 1 & 1, cr & 1);
  return 0;
}
