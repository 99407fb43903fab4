// Records the calls of four threads on each list, in the format of docs/YOUR-SET.md, and judges the recordings in the
// same process.
#define _POSIX_C_SOURCE 200809L
#include "listset.h"
#include <pthread.h>
#include <stdatomic.h>
#include <stdio.h>
#include <string.h>

enum { THREADS = 4, CALLS = 10000, KEYS = 32, QUOTA = 16384, LINE = 80 };

typedef struct {
  unsigned thread, kind, key, reply;
  unsigned long begin, end;
} call;
typedef struct {
  listset_seat seat;
  unsigned number;
  call calls[CALLS];
} task;

static const char *REPLIES[] = {"false", "true", "full"}, *KINDS[] = {"add", "remove", "contains"};
static atomic_ulong tickets;
static task tasks[THREADS];
static call all[THREADS * CALLS];
static char text[THREADS * CALLS * LINE];

static void *run(void *given) {
  static listset_reply (*const FUNCTIONS[])(listset_seat *, uint32_t) = {listset_add, listset_remove, listset_contains};
  task *it = given;
  unsigned long drawn = 88172645463325252ul + it->number;
  for (call *made = it->calls; made < it->calls + CALLS; made++) {
    drawn = drawn * 6364136223846793005ul + 1442695040888963407ul;
    *made = (call){.thread = it->number, .kind = (drawn >> 40) % 3, .key = (drawn >> 50) % KEYS, .begin = ++tickets};
    made->reply = FUNCTIONS[made->kind](&it->seat, made->key).is;
    made->end = ++tickets;
  }
  return NULL;
}

static int by_begin(const void *left, const void *right) {
  unsigned long a = ((const call *)left)->begin, b = ((const call *)right)->begin;
  return (a > b) - (a < b);
}

static size_t written(const uint32_t *keys, size_t count) {
  char *at = text + sprintf(text, "listset-calls 1\n");
  for (int it = 0; it < THREADS; it++) memcpy(all + it * CALLS, tasks[it].calls, sizeof tasks[it].calls);
  qsort(all, THREADS * CALLS, sizeof *all, by_begin);
  for (call *it = all; it < all + THREADS * CALLS; it++)
    at += sprintf(at, "call %u %s %u %lu %lu %s\n", it->thread, KINDS[it->kind], it->key, it->begin, it->end, REPLIES[it->reply]);
  for (size_t key = 0; key < count; key++) at += sprintf(at, "key %u\n", keys[key]);
  return at + sprintf(at, "end\n") - text;
}

// Returns whether the judge's output and status for the recording in a file equal those for the recording in memory.
static int is_judged_from_file(size_t length, uint8_t due, const char *said) {
  char room[8192];
  uint8_t status;
  FILE *file = tmpfile();
  fwrite(text, 1, length, file);
  rewind(file);
  size_t count = listset_judge_from(fileno(file), room, sizeof room, &status);
  fclose(file);
  return status == due && count == strlen(said) && memcmp(room, said, count) == 0;
}

// Returns whether the judge's output for the recorded text begins with `begins` and has the status `due`.
static int is_judged(size_t length, uint8_t due, const char *begins) {
  size_t said_length;
  uint8_t status;
  char *said = listset_said(listset_judge, text, length, &said_length, &status);
  int is_so = status == due && strncmp(said, begins, strlen(begins)) == 0 && is_judged_from_file(length, due, said);
  printf("%s", said);
  free(said);
  return is_so;
}

static int is_right(uint8_t list) {
  uint32_t keys[KEYS], none;
  pthread_t threads[THREADS];
  if (listset_open(list, THREADS, QUOTA, list, &none, 0, &tasks[0].seat) != LISTSET_OK) return 0;
  for (unsigned at = 1; at < THREADS; at++)
    if (listset_split(&tasks[0].seat, &tasks[tasks[at].number = at].seat) != LISTSET_OK) return 0;
  for (int at = 0; at < THREADS; at++) pthread_create(&threads[at], NULL, run, &tasks[at]);
  for (int at = 0; at < THREADS; at++) pthread_join(threads[at], NULL);
  for (int at = 1; at < THREADS; at++)
    if (listset_gather(&tasks[0].seat, &tasks[at].seat) != LISTSET_OK) return 0;
  if (listset_close(&tasks[0].seat) != LISTSET_OK) return 0;
  size_t count = listset_keys(&tasks[0].seat, keys, KEYS);
  listset_drop(&tasks[0].seat);
  // In the second recording, a final key is missing.
  return is_judged(written(keys, count), LISTSET_OK, "ok 40000 calls\n") &&
         is_judged(written(keys, count - 1), LISTSET_WRONG_TEXT, "not linearizable\n");
}

int main(void) {
  int right = 0;
  for (uint8_t list = LISTSET_COARSE; list <= LISTSET_LOCK_FREE; list++) right += is_right(list);
  return right != 5;
}
