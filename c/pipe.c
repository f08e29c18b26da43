/* Runs a tape that comes down a pipe, on a fresh machine, and prints how many
 * records were done: cat a.tape b.tape | pipe. Where the tape does not end, a
 * line on standard error says why, and the status is 1; where a read fails or
 * the argument is none, it is 2. Where standard error is a terminal, the count
 * is shown there while it runs.
 *
 * The argument, 1 to 65536, is the most bytes of a piece; else it is 65536. */
#define _XOPEN_SOURCE 700
#include <errno.h>
#include <inttypes.h>
#include <stdio.h>
#include <stdlib.h>
#include <string.h>
#include <time.h>
#include <unistd.h>

#include "naszeptan.h"

enum { PIECE = 65536 };

static uint64_t memory[NASZEPTAN_MEMORY];
static uint8_t piece[PIECE];

/* Once a second. */
static void show(const struct naszeptan_session *session) {
  static time_t last;
  if (isatty(STDERR_FILENO) && time(NULL) != last) {
    last = time(NULL);
    fprintf(stderr, "\r%" PRIu64 " records", session->count);
  }
}

/* Feeds all of standard input, or up to the stop. Whether it could be read. */
static int feed_all(struct naszeptan_session *session, size_t most) {
  for (;;) {
    ssize_t bytes = read(STDIN_FILENO, piece, most);
    if (bytes < 0 && errno == EINTR)
      continue;
    if (bytes <= 0)
      return bytes == 0;
    /* Each record's answer is not asked for: no places are lent for them. */
    struct naszeptan_fed fed = naszeptan_feed(
        *session, memory, NASZEPTAN_MEMORY, piece, (size_t)bytes, NULL, 0);
    *session = fed.session;
    if (fed.answer != NASZEPTAN_DONE)
      return 1;
    show(session);
  }
}

/* The argument's number, or 0. */
static size_t most_of(int argc, char **argv) {
  char *end = "";
  unsigned long most = argc > 1 ? strtoul(argv[1], &end, 10) : PIECE;
  return argc > 2 || *end != '\0' || most > PIECE ? 0 : most;
}

int main(int argc, char **argv) {
  size_t most = most_of(argc, argv);
  struct naszeptan_session session =
      naszeptan_open(naszeptan_fresh(), NASZEPTAN_MEMORY);
  if (most == 0) {
    fputs("pipe: the most bytes of a piece are 1 to 65536\n", stderr);
    return 2;
  }
  if (!feed_all(&session, most)) {
    fprintf(stderr, "pipe: standard input: %s\n", strerror(errno));
    return 2;
  }
  struct naszeptan_ended ended = naszeptan_close(session, NASZEPTAN_MEMORY);
  if (isatty(STDERR_FILENO))
    fputs("\r\033[K", stderr);
  printf("end %zu\n", ended.count);
  if (ended.answer == NASZEPTAN_DONE)
    return 0;
  fprintf(stderr, "pipe: record %zu: %u\n", ended.index, ended.answer);
  return 1;
}
