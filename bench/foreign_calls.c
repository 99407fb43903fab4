// Makes calls on a set of liblistset from C. Arguments: SET THREADS CALLS KEYS; CALLS is the number of calls of each
// thread. Prints the elapsed nanoseconds, divided by the number of calls of all threads. One third of the calls are
// adds, one third removes, and one third contains, with random keys. About half of the keys are in the set.
#define _POSIX_C_SOURCE 200809L
#include <listset.h>
#include <pthread.h>
#include <string.h>
#include <time.h>

enum { MOST_THREADS = 64, MOST_KEYS = 1 << 20, QUOTA = 16384 };

static struct {
  _Alignas(128) listset_seat seat;
} places[MOST_THREADS];
static listset_seat seats[MOST_THREADS];
static uint32_t opening[MOST_KEYS];
static unsigned calls, keys;
static pthread_barrier_t ready, begin, end;

static void *run(void *place) {
  listset_seat *seat = place;
  uint64_t drawn = 88172645463325252u + (uintptr_t)place;
  pthread_barrier_wait(&ready), pthread_barrier_wait(&begin);
  for (unsigned call = 0; call < calls; call++) {
    drawn = drawn * 6364136223846793005u + 1442695040888963407u;
    const uint32_t key = (uint32_t)(drawn >> 33) % keys, kind = (uint32_t)(drawn >> 20) % 3;
    const listset_reply reply = kind == 0 ? listset_add(seat, key) : kind == 1 ? listset_remove(seat, key) : listset_contains(seat, key);
    if (reply.is > LISTSET_TRUE) abort();
  }
  pthread_barrier_wait(&end);
  return NULL;
}

static double now(void) {
  struct timespec at;
  clock_gettime(CLOCK_MONOTONIC, &at);
  return at.tv_sec * 1e9 + at.tv_nsec;
}

int main(int count, char **words) {
  if (count != 5) return 2;
  const unsigned threads = atoi(words[2]);
  const listset_list kind = strcmp(words[1], "lazy") == 0 ? LISTSET_LAZY : LISTSET_LOCK_FREE;
  calls = atoi(words[3]), keys = atoi(words[4]);
  for (unsigned at = 0; at < keys / 2; at++) opening[at] = 2 * at;
  int fault = listset_open(kind, threads, QUOTA, 1, opening, keys / 2, &places[0].seat);
  for (unsigned at = 1; at < threads; at++) fault |= listset_split(&places[0].seat, &places[at].seat);
  if (fault) return 1;
  pthread_t all[MOST_THREADS];
  pthread_barrier_t *const barriers[] = {&ready, &begin, &end};
  for (int at = 0; at < 3; at++) pthread_barrier_init(barriers[at], NULL, threads + 1);
  for (unsigned at = 0; at < threads; at++) pthread_create(&all[at], NULL, run, &places[at].seat);
  pthread_barrier_wait(&ready);
  const double begun = now();
  pthread_barrier_wait(&begin);
  pthread_barrier_wait(&end);
  printf("%.2f\n", (now() - begun) / ((double)threads * calls));
  for (unsigned at = 0; at < threads; at++) pthread_join(all[at], NULL), seats[at] = places[at].seat;
  return listset_close_all(seats, threads) != LISTSET_OK;
}
