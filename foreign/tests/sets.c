// Tests each list with threads that share one set. For its own keys, a thread compares the replies with a model. For a
// shared key, all threads count together: 1 if the set was opened with the key, plus the adds and minus the removes
// that returned true. The count must be 1 if the set has the key at the end, otherwise 0.
//
//     sets CALLS THREADS     at most 64 threads
#include "listset.h"

#include <pthread.h>
#include <stdatomic.h>
#include <stdio.h>
#include <string.h>

enum { MOST_THREADS = 64, OWN = 32, SHARED = 64, QUOTA = 16384, KEYS = SHARED + MOST_THREADS * OWN };

static const uint32_t OPENING[] = {1, 7, 63};
static size_t calls, thread_count;
static atomic_int net[SHARED];
static atomic_long wrong;

typedef struct {
  listset_seat seat;
  uint32_t number, adds;
  uint64_t drawn;
  bool own[OWN];
} task;

// The number of operations that threads choose from. Several threads on the lock-free list do not call ceiling, because
// a ceiling could wait for a remove that no thread calls.
static uint32_t kinds;

static uint64_t draw(uint64_t *drawn) {
  *drawn ^= *drawn << 13, *drawn ^= *drawn >> 7, *drawn ^= *drawn << 17;
  return *drawn;
}

static void call_shared(task *it, uint32_t kind, uint32_t key) {
  uint32_t at;
  uint8_t reply = kind == 0   ? listset_add(&it->seat, key).is
                  : kind == 1 ? listset_remove(&it->seat, key).is
                  : kind == 2 ? listset_contains(&it->seat, key).is
                              : listset_ceiling(&it->seat, key, &at).is;
  if (kind < 2 && reply == LISTSET_TRUE) net[key] += kind == 0 ? 1 : -1;
  it->adds += kind == 0 && reply == LISTSET_TRUE;
  bool may = kind == 3   ? (reply == LISTSET_AT && at >= key) || reply == LISTSET_NOTHING
             : kind == 0 ? reply <= LISTSET_FULL
                         : reply <= LISTSET_TRUE;
  wrong += !may || (reply == LISTSET_FULL && it->adds < QUOTA);
}

// Calls an operation with a key that only the thread `it` uses. Thread t's own keys are the OWN keys that start at
// SHARED + t * OWN; `k` is the key's index among the own keys.
static void call_own(task *it, uint32_t kind, uint32_t k) {
  uint32_t base = SHARED + it->number * OWN, at = 0, next = k;
  uint8_t want;
  while (next < OWN && !it->own[next]) next++;
  switch (kind) {
  case 0:
    want = it->own[k] ? LISTSET_FALSE : it->adds < QUOTA ? LISTSET_TRUE : LISTSET_FULL;
    wrong += listset_add(&it->seat, base + k).is != want;
    if (want == LISTSET_TRUE) it->own[k] = true, it->adds++;
    break;
  case 1:
    wrong += listset_remove(&it->seat, base + k).is != it->own[k];
    it->own[k] = false;
    break;
  case 2: wrong += listset_contains(&it->seat, base + k).is != it->own[k]; break;
  default:
    want = listset_ceiling(&it->seat, base + k, &at).is;
    wrong += next < OWN ? want != LISTSET_AT || at != base + next : !(want == LISTSET_NOTHING || (want == LISTSET_AT && at >= base + OWN));
  }
}

static void *run(void *given) {
  task *it = given;
  for (size_t at = 0; at < calls; at++) {
    uint64_t drawn = draw(&it->drawn);
    uint32_t kind = drawn % kinds;
    if ((drawn >> 40) & 1)
      call_shared(it, kind, (drawn >> 16) % SHARED);
    else
      call_own(it, kind, (drawn >> 8) % OWN);
  }
  return NULL;
}

// Returns whether the final keys are increasing, and agree with the threads' models and counts.
static bool are_left(listset_seat *closed, const task *tasks) {
  static uint32_t keys[KEYS];
  static bool left[KEYS];
  memset(left, 0, sizeof left);
  size_t count = listset_keys(closed, keys, KEYS), bad = count > KEYS;
  for (size_t at = 0; !bad && at < count; at++) {
    bad += keys[at] >= KEYS || (at > 0 && keys[at] <= keys[at - 1]);
    if (!bad) left[keys[at]] = true;
  }
  for (int key = 0; key < SHARED; key++) bad += net[key] != left[key];
  for (size_t thread = 0; thread < thread_count; thread++)
    for (int k = 0; k < OWN; k++) bad += tasks[thread].own[k] != left[SHARED + thread * OWN + k];
  return bad == 0;
}

static bool trial(uint8_t kind) {
  static task tasks[MOST_THREADS];
  pthread_t threads[MOST_THREADS];
  memset(tasks, 0, sizeof tasks);
  kinds = kind == LISTSET_LOCK_FREE && thread_count > 1 ? 3 : 4;
  for (int key = 0; key < SHARED; key++) net[key] = key == 1 || key == 7 || key == 63;
  wrong = listset_open(kind, thread_count, QUOTA, kind, OPENING, 3, &tasks[0].seat) != LISTSET_OK;
  for (size_t at = 0; at < thread_count; at++) {
    tasks[at].number = at, tasks[at].drawn = 88172645463325252ull + at * 7919;
    if (at > 0) wrong += listset_split(&tasks[0].seat, &tasks[at].seat) != LISTSET_OK;
  }
  for (size_t at = 0; at < thread_count; at++) pthread_create(&threads[at], NULL, run, &tasks[at]);
  for (size_t at = 0; at < thread_count; at++) pthread_join(threads[at], NULL);
  if (thread_count > 1) wrong += listset_close(&tasks[0].seat) != LISTSET_SEATS_OUT;
  for (size_t at = 1; at < thread_count; at++) wrong += listset_gather(&tasks[0].seat, &tasks[at].seat) != LISTSET_OK;
  wrong += listset_close(&tasks[0].seat) != LISTSET_OK;
  wrong += !are_left(&tasks[0].seat, tasks);
  listset_drop(&tasks[0].seat);
  return wrong == 0;
}

int main(int count, char **words) {
  calls = count > 1 ? strtoul(words[1], NULL, 10) : 20000, thread_count = count > 2 ? strtoul(words[2], NULL, 10) : 4;
  int failed = 0;
  for (uint8_t kind = LISTSET_COARSE; kind <= LISTSET_LOCK_FREE; kind++)
    if (!trial(kind)) printf("list %d: %ld wrong\n", kind, (long)wrong), failed++;
  return failed != 0;
}
