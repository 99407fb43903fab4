// Tests a set of maximum size for each list. A set of maximum size starts with the maximum number of keys. Its seats
// (one for each thread) then add as many smaller keys as their quotas (successful adds that one thread may make) allow.
// Then the threads make calls that traverse all keys, and the set is closed.
#include "listset.h"

#include <stdio.h>

enum { SEATS = 64, QUOTA = 16384, OPENING = 1048576, ADDED = SEATS * QUOTA, MOST = ADDED + OPENING };

static uint32_t keys[MOST];
static int wrong;

static void expect(int kind, const char *what, size_t found, size_t due) {
  if (found == due) return;
  printf("list %d: %s: %zu in place of %zu\n", kind, what, found, due);
  wrong++;
}

// Adds decreasing keys, so that each new node directly follows the head.
static void fill(int kind, listset_seat *seat, uint32_t first) {
  for (uint32_t number = QUOTA; number > 0; number--) expect(kind, "add", listset_add(seat, first + number - 1).is, LISTSET_TRUE);
}

// Splits all other seats off the first seat, uses up the quota of each seat, and merges each seat back into the first
// seat. After the first merge, no more seats can be split off.
static void fill_all(int kind, listset_seat *first) {
  listset_seat others[SEATS] = {LISTSET_NONE};
  for (uint32_t number = 1; number < SEATS; number++) expect(kind, "split", listset_split(first, &others[number]), LISTSET_OK);
  for (uint32_t number = 1; number < SEATS; number++) {
    fill(kind, &others[number], ADDED - number * QUOTA);
    expect(kind, "gather", listset_gather(first, &others[number]), LISTSET_OK);
  }
  fill(kind, first, 0);
}

static void trial(int kind) {
  listset_seat seat = LISTSET_NONE;
  uint32_t at = 0, last = 2 * MOST + OPENING - 1;
  for (uint32_t number = 0; number < OPENING; number++) keys[number] = 2 * MOST + number;
  expect(kind, "open", listset_open(kind, SEATS, QUOTA, 1, keys, OPENING, &seat), LISTSET_OK);
  fill_all(kind, &seat);
  expect(kind, "contains", listset_contains(&seat, last).is, LISTSET_TRUE);
  expect(kind, "ceiling", listset_ceiling(&seat, last, &at).is, LISTSET_AT);
  expect(kind, "of the last", at, last);
  expect(kind, "add past all", listset_add(&seat, UINT32_MAX).is, LISTSET_FULL);
  expect(kind, "close", listset_close(&seat), LISTSET_OK);
  expect(kind, "keys", listset_keys(&seat, keys, MOST), MOST);
  expect(kind, "the last of them", keys[MOST - 1], last);
  listset_drop(&seat);
}

int main(void) {
  for (int kind = LISTSET_COARSE; kind <= LISTSET_LOCK_FREE; kind++) trial(kind);
  return wrong != 0;
}
