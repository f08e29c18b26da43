/* TEXASR in words. A line of standard input that begins with 0x has a value
 * and the words for it; naszeptan_words.h is held to each. Then the words of
 * any value fit the buffer that the header asks for. */
#include <stdlib.h>
#include <string.h>

#include "naszeptan_words.h"

static int held(char *line) {
  char words[NASZEPTAN_WORDS];
  char *space;
  uint64_t value = strtoull(line, &space, 16);
  line[strcspn(line, "\n")] = '\0';
  naszeptan_texasr_words(value, words, sizeof words);
  if (*space == ' ' && strcmp(words, space + 1) == 0)
    return 1;
  printf("wanted %s\nbut said: %s\n", line, words);
  return 0;
}

/* The longest words come from all other bits set, whatever the code. They are
 * there to their end, and a short buffer has as many of them as it can. */
static int fits(void) {
  static const char end[] = ", other bits 0x0000000041FFF000";
  char whole[NASZEPTAN_WORDS], cut[20];
  for (uint64_t code = 0; code < 256; code++) {
    uint64_t value = code << 56 | UINT64_C(0x00FFFFFFFFFFFFFF);
    naszeptan_texasr_words(value, whole, sizeof whole);
    naszeptan_texasr_words(value, cut, sizeof cut);
    const char *found = strstr(whole, end);
    if (found == NULL || strcmp(found, end) != 0 ||
        strncmp(whole, cut, sizeof cut - 1) != 0 ||
        strlen(cut) != sizeof cut - 1)
      return 0;
  }
  return 1;
}

int main(void) {
  char line[1024];
  int count = 0;
  while (fgets(line, sizeof line, stdin) != NULL) {
    if (strncmp(line, "0x", 2) != 0)
      continue;
    if (!held(line))
      return 1;
    count++;
  }
  if (count == 0 || !fits()) {
    puts("no examples, or words that do not fit");
    return 1;
  }
  printf("C host: %d values in words\n", count);
  return 0;
}
