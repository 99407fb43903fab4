// Splits a recording by key. Each part is a complete recording:
//
//     cc -O2 by_key.c -o by_key && ./by_key PART .. < RECORDING
//
// A PART is a file or a pipe. Once the reader of a pipe has closed it, the pipe receives no further lines.
#define _GNU_SOURCE
#include <errno.h>
#include <fcntl.h>
#include <signal.h>
#include <stdio.h>
#include <stdlib.h>
#include <string.h>
#include <unistd.h>

enum { SIZE = 1 << 16, PIPE = 1 << 20 };

struct part {
  int file;
  size_t used;
  char bytes[SIZE];
};

static char input[SIZE + 1];

static void fail(const char *what) {
  perror(what);
  exit(1);
}

static void flush(struct part *it) {
  for (size_t done = 0; done < it->used && it->file >= 0;) {
    ssize_t count = write(it->file, it->bytes + done, it->used - done);
    if (count >= 0) done += count;
    else if (errno == EPIPE) it->file = -1;
    else fail("by_key: a part cannot be written");
  }
  it->used = 0;
}

static void put(struct part *it, const char *line, size_t length) {
  if (it->used + length > SIZE) flush(it);
  memcpy(it->bytes + it->used, line, length);
  it->used += length;
}

// Returns 1 and stores the line's key if it has one: the fourth field of a call, or the second of an opening or final
// key. Otherwise returns 0.
static int key_of(const char *line, unsigned *key) {
  const char *at = line;
  int spaces = line[0] == 'c' && line[1] == 'a' ? 3 : line[0] == 'o' || line[0] == 'k' ? 1 : 0;
  if (spaces == 0) return 0;
  for (; spaces > 0 && *at != '\n'; at++) spaces -= *at == ' ';
  for (*key = 0; *at >= '0' && *at <= '9'; at++) *key = *key * 10 + (*at - '0');
  return 1;
}

// Writes a line to the part for its key. A line without a key is written to all parts.
static void put_line(struct part *parts, unsigned count, const char *line, size_t length) {
  unsigned key;
  if (key_of(line, &key)) put(&parts[key % count], line, length);
  else for (unsigned i = 0; i < count; i++) put(&parts[i], line, length);
}

int main(int words, char **word) {
  unsigned count = words - 1;
  struct part *parts = calloc(count + 1, sizeof *parts);
  if (count == 0 || parts == NULL) return fputs("by_key PART .. < RECORDING\n", stderr), 2;
  signal(SIGPIPE, SIG_IGN);
  for (unsigned i = 0; i < count; i++) {
    if ((parts[i].file = open(word[i + 1], O_WRONLY | O_CREAT | O_TRUNC, 0666)) < 0) fail(word[i + 1]);
#ifdef F_SETPIPE_SZ
    fcntl(parts[i].file, F_SETPIPE_SZ, PIPE);  // (so that a judge that waits for a processor does not delay the others)
#endif
  }
  size_t kept = 0;
  for (ssize_t got; (got = read(0, input + kept, SIZE - kept)) > 0;) {
    char *line = input, *end = input + kept + got;
    for (char *next; (next = memchr(line, '\n', end - line)) != NULL; line = next + 1) put_line(parts, count, line, next + 1 - line);
    kept = end - line;
    if (kept == SIZE) fail("by_key: a line is too long");
    memmove(input, line, kept);
  }
  input[kept] = '\n';
  if (kept > 0) put_line(parts, count, input, kept);
  for (unsigned i = 0; i < count; i++) flush(&parts[i]);
  return 0;
}
