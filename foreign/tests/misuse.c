// Calls each function of the sets with arguments that the function must refuse, and with each allocation failing in
// turn. Link with --wrap for malloc, realloc and free.
#include "listset.h"

#include <stdio.h>
#include <string.h>

enum { UNTOUCHED = 77, MOST_KEYS = 1048576 };

static const uint32_t KEYS[] = {1, 7, 63}, FALLING[] = {7, 7};
static uint32_t many[MOST_KEYS + 1];
static size_t refused_at, asked, blocks, wrong;

void *__real_malloc(size_t);
void *__real_realloc(void *, size_t);
void __real_free(void *);

static int is_refused(void) { return ++asked == refused_at; }

void *__wrap_malloc(size_t size) {
  void *block = is_refused() ? NULL : __real_malloc(size);
  blocks += block != NULL;
  return block;
}

void *__wrap_realloc(void *block, size_t size) { return is_refused() ? NULL : __real_realloc(block, size); }

void __wrap_free(void *block) {
  blocks -= block != NULL;
  __real_free(block);
}

static void expect(const char *what, size_t found, size_t due) {
  if (found == due) return;
  printf("%s: %zu in place of %zu\n", what, found, due);
  wrong++;
}

static void calls_without_a_seat(const char *what, listset_seat *none) {
  uint32_t at = UNTOUCHED, room[4] = {UNTOUCHED};
  listset_seat out = LISTSET_NONE;
  listset_receipt receipt = LISTSET_NONE;
  expect(what, listset_contains_now(none, 1).is, LISTSET_NO_SEAT);
  expect(what, listset_receipt_of(none, &receipt), LISTSET_NONE_THERE);
  expect(what, listset_after(none, &receipt), LISTSET_NONE_THERE);
  expect(what, receipt.full, false);
  expect(what, listset_seats_within(none, &at), 0);
  expect(what, at, 0);
  at = UNTOUCHED;
  expect(what, listset_add(none, 1).is, LISTSET_NO_SEAT);
  expect(what, listset_remove(none, 1).is, LISTSET_NO_SEAT);
  expect(what, listset_contains(none, 1).is, LISTSET_NO_SEAT);
  expect(what, listset_ceiling(none, 1, &at).is, LISTSET_NO_SEAT);
  expect(what, at, UNTOUCHED);
  expect(what, listset_split(none, &out), none->full ? LISTSET_NO_MORE : LISTSET_NONE_THERE);
  expect(what, out.full, false);
  expect(what, listset_close(none), LISTSET_NONE_THERE);
  if (!none->full) expect(what, listset_keys(none, room, 4), SIZE_MAX), expect(what, room[0], UNTOUCHED);
}

static void refused_openings(void) {
  listset_seat out = LISTSET_NONE;
  expect("no such list", listset_open(5, 1, 1, 0, KEYS, 3, &out), LISTSET_BAD_KIND);
  expect("no seat", listset_open(LISTSET_LAZY, 0, 1, 0, KEYS, 3, &out), LISTSET_BAD_SEATS);
  expect("too many seats", listset_open(LISTSET_LAZY, 65, 1, 0, KEYS, 3, &out), LISTSET_BAD_SEATS);
  expect("too large a quota", listset_open(LISTSET_LAZY, 1, 16385, 0, KEYS, 3, &out), LISTSET_BAD_QUOTA);
  expect("keys that do not increase", listset_open(LISTSET_LAZY, 1, 1, 0, FALLING, 2, &out), LISTSET_BAD_KEYS);
  expect("too many keys", listset_open(LISTSET_LAZY, 1, 1, 0, many, MOST_KEYS + 1, &out), LISTSET_BAD_KEYS);
  expect("nothing was opened", out.full, false);
}

static void refused_calls(uint8_t kind) {
  listset_seat a = LISTSET_NONE, b = LISTSET_NONE, c = LISTSET_NONE, other = LISTSET_NONE;
  uint32_t at = 0, room[8] = {UNTOUCHED};
  expect("open", listset_open(kind, 2, 2, 1, KEYS, 3, &a), LISTSET_OK);
  expect("open another of the list", listset_open(kind, 1, 1, 2, KEYS, 0, &other), LISTSET_OK);
  expect("open onto a seat", listset_open(kind, 2, 2, 1, KEYS, 3, &a), LISTSET_IS_SEAT);
  expect("split onto a seat", listset_split(&a, &other), LISTSET_IS_SEAT);
  expect("split", listset_split(&a, &b), LISTSET_OK);
  expect("none is left", listset_split(&a, &c), LISTSET_NO_MORE);
  expect("a seat is out", listset_close(&a), LISTSET_SEATS_OUT);
  expect("the set goes on", listset_contains(&a, 7).is, LISTSET_TRUE);
  expect("add", listset_add(&b, 100).is, LISTSET_TRUE);
  expect("add again", listset_add(&a, 100).is, LISTSET_FALSE);
  expect("add more", listset_add(&b, 101).is, LISTSET_TRUE);
  expect("past the quota", listset_add(&b, 102).is, LISTSET_FULL);
  expect("ceiling", listset_ceiling(&b, 64, &at).is, LISTSET_AT);
  expect("of 64", at, 100);
  expect("no ceiling", listset_ceiling(&b, 102, &at).is, LISTSET_NOTHING);
  expect("it writes nothing", at, 100);
  expect("gather a seat of another set", listset_gather(&a, &other), LISTSET_NO_GATHER);
  expect("the one goes on", listset_contains(&a, 63).is, LISTSET_TRUE);
  expect("the other goes on", listset_contains(&other, 63).is, LISTSET_FALSE);
  expect("gather none", listset_gather(&a, &c), LISTSET_NONE_THERE);
  expect("gather into none", listset_gather(&c, &b), LISTSET_NONE_THERE);
  expect("keys of a running set", listset_keys(&a, room, 8), SIZE_MAX);
  expect("gather", listset_gather(&a, &b), LISTSET_OK);
  expect("what was gathered is not split off", listset_split(&a, &b), LISTSET_NO_MORE);
  calls_without_a_seat("a gathered seat", &b);
  expect("remove", listset_remove(&a, 7).is, LISTSET_TRUE);
  expect("close", listset_close(&a), LISTSET_OK);
  calls_without_a_seat("a closed set", &a);
  expect("gather a closed set", listset_gather(&other, &a), LISTSET_NO_GATHER);
  expect("keys into too little room", listset_keys(&a, room, 3), 4);
  expect("it writes nothing", room[0], UNTOUCHED);
  expect("keys", listset_keys(&a, room, 8), 4);
  static const uint32_t LEFT[] = {1, 63, 100, 101};
  expect("are those", memcmp(room, LEFT, sizeof LEFT), 0);
  expect("they are kept", listset_keys(&a, room, 8), 4);
  listset_drop(&a), listset_drop(&a), listset_drop(&other);
  calls_without_a_seat("a dropped seat", &a);
}

// Tests receipts (proofs of the calls that a seat has made) and `contains_now` on a list of the kind `kind`.
static void reads_and_receipts(uint8_t kind) {
  const bool blocks = kind < LISTSET_LAZY;
  listset_seat a = LISTSET_NONE, b = LISTSET_NONE, other = LISTSET_NONE;
  listset_receipt first = LISTSET_NONE, second = LISTSET_NONE;
  expect("open", listset_open(kind, 2, 2, 1, KEYS, 3, &a), LISTSET_OK);
  expect("open another", listset_open(kind, 1, 1, 2, KEYS, 0, &other), LISTSET_OK);
  expect("split", listset_split(&a, &b), LISTSET_OK);
  expect("contains_now", listset_contains_now(&a, 7).is, blocks ? LISTSET_MAY_BLOCK : LISTSET_TRUE);
  expect("contains_now of another key", listset_contains_now(&a, 8).is, blocks ? LISTSET_MAY_BLOCK : LISTSET_FALSE);
  expect("remove", listset_remove(&b, 7).is, LISTSET_TRUE);
  expect("contains_now of a key that is away", listset_contains_now(&a, 7).is, blocks ? LISTSET_MAY_BLOCK : LISTSET_FALSE);
  expect("a receipt", listset_receipt_of(&b, &first), LISTSET_OK);
  expect("a receipt onto a receipt", listset_receipt_of(&b, &first), LISTSET_IS_SEAT);
  expect("a second receipt", listset_receipt_of(&b, &second), LISTSET_OK);
  expect("a receipt of another set", listset_after(&other, &first), LISTSET_NO_GATHER);
  expect("take it", listset_after(&a, &first), LISTSET_OK);
  expect("take it again", listset_after(&a, &first), LISTSET_NONE_THERE);
  expect("the set still takes calls", listset_add(&a, 7).is, LISTSET_TRUE);
  uint32_t all = 0;
  expect("seats within", listset_seats_within(&a, &all), 1);
  expect("of two", all, 2);
  expect("gather", listset_gather(&a, &b), LISTSET_OK);
  expect("seats within", listset_seats_within(&a, &all), 2);
  expect("close while a receipt is left", listset_close(&a), LISTSET_OK);
  calls_without_a_seat("a closed set", &a);
  listset_drop(&a), listset_drop(&other), listset_drop_receipt(&second), listset_drop_receipt(&second);
  expect("steps", listset_most_reads(2, 3, 4), 2 * (2 * 3 + 4) + 2);
  expect("most steps", listset_most_reads(64, 16384, MOST_KEYS), 4194306);
  const uint32_t outside[][3] = {{0, 1, 1}, {65, 1, 1}, {1, 16385, 1}, {1, 1, MOST_KEYS + 1}};
  for (int at = 0; at < 4; at++) expect("no steps", listset_most_reads(outside[at][0], outside[at][1], outside[at][2]), 0);
}

// Calls `listset_renew` with arguments that it must refuse, for a set with three seats (one for each thread) in an
// array of five.
static void refused_renewals(uint8_t kind) {
  listset_seat seats[5] = {LISTSET_NONE, LISTSET_NONE, LISTSET_NONE, LISTSET_NONE, LISTSET_NONE}, out = LISTSET_NONE;
  uint32_t room[8];
  expect("renew nothing", listset_renew(seats, 5, kind, 1, 1, 1), LISTSET_NONE_THERE);
  expect("close nothing", listset_close_all(seats, 5), LISTSET_NONE_THERE);
  expect("open", listset_open(kind, 3, 1, 1, KEYS, 3, &seats[1]), LISTSET_OK);
  expect("split", listset_split(&seats[1], &seats[4]), LISTSET_OK);
  expect("split", listset_split(&seats[1], &out), LISTSET_OK);
  expect("a seat is missing", listset_renew(seats, 5, kind, 1, 1, 1), LISTSET_SEATS_OUT);
  expect("a seat is missing", listset_close_all(seats, 5), LISTSET_SEATS_OUT);
  expect("they are apart", listset_add(&seats[4], 2).is, LISTSET_TRUE);
  seats[2] = out;
  expect("no such list", listset_renew(seats, 5, 5, 1, 1, 1), LISTSET_BAD_KIND);
  expect("no seats", listset_renew(seats, 5, kind, 0, 1, 1), LISTSET_BAD_SEATS);
  expect("too many seats", listset_renew(seats, 5, kind, 6, 1, 1), LISTSET_BAD_SEATS);
  expect("too large a quota", listset_renew(seats, 5, kind, 1, 16385, 1), LISTSET_BAD_QUOTA);
  expect("past the quota", listset_add(&seats[4], 3).is, LISTSET_FULL);
  expect("renew", listset_renew(seats, 5, (kind + 1) % 5, 4, 2, 2), LISTSET_OK);
  expect("four of five", seats[3].full && !seats[4].full, true);
  expect("a new quota", listset_add(&seats[3], 3).is, LISTSET_TRUE);
  expect("an old key", listset_remove(&seats[0], 63).is, LISTSET_TRUE);
  expect("close", listset_close_all(seats, 5), LISTSET_OK);
  expect("close again", listset_close_all(seats, 5), LISTSET_OK);
  static const uint32_t LEFT[] = {1, 2, 3, 7};
  expect("keys", listset_keys(&seats[0], room, 8), 4);
  expect("are those", memcmp(room, LEFT, sizeof LEFT), 0);
  expect("renew a closed set", listset_renew(seats, 5, kind, 1, 1, 1), LISTSET_OK);
  expect("it still takes calls", listset_contains(&seats[0], 3).is, LISTSET_TRUE);
  listset_drop(&seats[0]);
}

// Renews a set while allocation number `refused` fails. A second call must renew the set with all its keys.
static void one_renewal(uint8_t kind, size_t refused) {
  listset_seat seats[3] = {LISTSET_NONE, LISTSET_NONE, LISTSET_NONE};
  uint32_t room[8];
  refused_at = 0;
  expect("open", listset_open(kind, 2, 1, 1, KEYS, 3, &seats[0]), LISTSET_OK);
  expect("split", listset_split(&seats[0], &seats[1]), LISTSET_OK);
  expect("add", listset_add(&seats[1], 5).is, LISTSET_TRUE);
  refused_at = refused, asked = 0;
  listset_fault fault = listset_renew(seats, 3, kind, 3, 1, 2);
  if (fault != LISTSET_OK) {
    expect("renew tells", fault, LISTSET_OUT_OF_MEMORY);
    fault = listset_renew(seats, 3, kind, 3, 1, 2);
  }
  expect("renew", fault, LISTSET_OK);
  for (uint32_t at = 0; at < 3; at++) expect("add to a new quota", listset_add(&seats[at], 100 + at).is, LISTSET_TRUE);
  const size_t asked_by_renew = asked;
  fault = listset_close_all(seats, 3);
  if (fault != LISTSET_OK) fault = listset_close_all(seats, 3);
  expect("close", fault, LISTSET_OK);
  expect("keys", listset_keys(&seats[0], room, 8), 7);
  listset_drop(&seats[0]);
  asked = asked_by_renew;
}

// Requests a receipt (proof of the calls that a seat has made) while the receipt's allocation fails. A second request
// must succeed and return the receipt.
static void one_receipt(uint8_t kind) {
  listset_seat seat = LISTSET_NONE;
  listset_receipt receipt = LISTSET_NONE;
  refused_at = 0;
  expect("open", listset_open(kind, 1, 1, 1, KEYS, 3, &seat), LISTSET_OK);
  refused_at = 1, asked = 0;
  expect("a receipt tells", listset_receipt_of(&seat, &receipt), LISTSET_OUT_OF_MEMORY);
  expect("none is given", receipt.full, false);
  expect("it is given later", listset_receipt_of(&seat, &receipt), LISTSET_OK);
  expect("and taken", listset_after(&seat, &receipt), LISTSET_OK);
  listset_drop(&seat);
}

static size_t asked_before;

static void expect_unasked(const char *what, size_t found, size_t due) {
  expect(what, found, due);
  expect("memory that a call asks for", asked, asked_before);
  asked_before = asked;
}

// Checks that the functions of a set do not allocate, except the functions that open, split and close.
static void calls_without_memory(uint8_t kind) {
  listset_seat a = LISTSET_NONE, b = LISTSET_NONE;
  uint32_t at = 0;
  expect("open for two", listset_open(kind, 2, 2, 1, KEYS, 3, &a), LISTSET_OK);
  expect("split one of two", listset_split(&a, &b), LISTSET_OK);
  asked_before = asked;
  expect_unasked("add by one", listset_add(&a, 100).is, LISTSET_TRUE);
  expect_unasked("add by the other", listset_add(&b, 100).is, LISTSET_FALSE);
  expect_unasked("contains", listset_contains(&b, 100).is, LISTSET_TRUE);
  expect_unasked("ceiling", listset_ceiling(&b, 64, &at).is, LISTSET_AT);
  expect_unasked("contains_now", listset_contains_now(&b, 100).is, kind < LISTSET_LAZY ? LISTSET_MAY_BLOCK : LISTSET_TRUE);
  expect_unasked("remove", listset_remove(&b, 100).is, LISTSET_TRUE);
  expect_unasked("gather", listset_gather(&a, &b), LISTSET_OK);
  expect_unasked("add once gathered", listset_add(&a, 9).is, LISTSET_TRUE);
  listset_drop(&a);
}

// Opens a set with ten seats (one for each thread) and splits three seats off the first one. One of the three gathers
// all other seats and closes the set. Also closes a set while most of its seats have never been split off.
static void seats_within(uint8_t kind) {
  listset_seat opener = LISTSET_NONE, a = LISTSET_NONE, b = LISTSET_NONE, c = LISTSET_NONE;
  uint32_t room[4];
  expect("open for ten", listset_open(kind, 10, 2, 1, KEYS, 3, &opener), LISTSET_OK);
  expect("split a", listset_split(&opener, &a), LISTSET_OK);
  expect("split b", listset_split(&opener, &b), LISTSET_OK);
  expect("split c", listset_split(&opener, &c), LISTSET_OK);
  expect("three are out", listset_close(&opener), LISTSET_SEATS_OUT);
  expect("gather one of one", listset_gather(&a, &b), LISTSET_OK);
  expect("one that was gathered is not split off", listset_split(&a, &b), LISTSET_NO_MORE);
  expect("gather a seat with others within it", listset_gather(&a, &opener), LISTSET_OK);
  expect("nothing is split off one that has gathered", listset_split(&a, &b), LISTSET_NO_MORE);
  expect("one is out", listset_close(&a), LISTSET_SEATS_OUT);
  expect("gather the last", listset_gather(&a, &c), LISTSET_OK);
  expect("close by a seat that was split off", listset_close(&a), LISTSET_OK);
  expect("its keys", listset_keys(&a, room, 4), 3);
  listset_drop(&a);
  expect("open for ten again", listset_open(kind, 10, 2, 1, KEYS, 3, &opener), LISTSET_OK);
  expect("close seats that were never split off", listset_close(&opener), LISTSET_OK);
  listset_drop(&opener);
  expect("open for ten once more", listset_open(kind, 10, 2, 1, KEYS, 3, &opener), LISTSET_OK);
  expect("split one", listset_split(&opener, &a), LISTSET_OK);
  expect("gather it", listset_gather(&opener, &a), LISTSET_OK);
  expect("close with eight never split off", listset_close(&opener), LISTSET_OK);
  expect("keys of ten", listset_keys(&opener, room, 4), 3);
  listset_drop(&opener);
}

// Opens a set with the maximum number of keys, and calls the set with its last key and with the largest possible key.
static void most_keys(uint8_t kind) {
  listset_seat seat = LISTSET_NONE;
  uint32_t at = 0;
  static uint32_t room[MOST_KEYS];
  expect("open with the most keys", listset_open(kind, 1, 1, 1, many, MOST_KEYS, &seat), LISTSET_OK);
  expect("remove the last", listset_remove(&seat, many[MOST_KEYS - 1]).is, LISTSET_TRUE);
  expect("it is away", listset_contains(&seat, many[MOST_KEYS - 1]).is, LISTSET_FALSE);
  expect("no ceiling of it", listset_ceiling(&seat, many[MOST_KEYS - 1], &at).is, LISTSET_NOTHING);
  expect("add the greatest", listset_add(&seat, UINT32_MAX).is, LISTSET_TRUE);
  expect("ceiling", listset_ceiling(&seat, many[MOST_KEYS - 1], &at).is, LISTSET_AT);
  expect("the greatest", at, UINT32_MAX);
  expect("close with the most keys", listset_close(&seat), LISTSET_OK);
  expect("the most keys", listset_keys(&seat, room, MOST_KEYS), MOST_KEYS);
  expect("all but the last", memcmp(room, many, sizeof room - sizeof *room), 0);
  expect("and the greatest", room[MOST_KEYS - 1], UINT32_MAX);
  listset_drop(&seat);
}

// Opens, splits, uses, gathers and closes a set while allocation number `refused` fails. The failure must be reported
// and must change nothing.
static void one_life(uint8_t kind, size_t refused) {
  listset_seat a = LISTSET_NONE, b = LISTSET_NONE;
  uint32_t room[8];
  refused_at = refused, asked = 0;
  uint8_t fault = listset_open(kind, 2, 4, 1, KEYS, 3, &a);
  if (fault != LISTSET_OK) {
    expect("open tells", fault, LISTSET_OUT_OF_MEMORY);
    expect("nothing is opened", a.full, false);
    return;
  }
  fault = listset_split(&a, &b);
  if (fault != LISTSET_OK) {
    expect("split tells", fault, LISTSET_OUT_OF_MEMORY);
    expect("nothing is split off", b.full, false);
    expect("it is split off later", listset_split(&a, &b), LISTSET_OK);
  }
  expect("add", listset_add(&a, 5).is, LISTSET_TRUE);
  expect("gather", listset_gather(&a, &b), LISTSET_OK);
  fault = listset_close(&a);
  if (fault != LISTSET_OK) {
    expect("close tells", fault, LISTSET_OUT_OF_MEMORY);
    expect("the set goes on", listset_contains(&a, 5).is, LISTSET_TRUE);
    expect("it is closed later", listset_close(&a), LISTSET_OK);
  }
  expect("keys", listset_keys(&a, room, 8), 4);
  listset_drop(&a);
}

// Checks that each fault has a different sentence.
static void sentences(void) {
  for (int fault = LISTSET_BAD_SEATS; fault <= LISTSET_TIMED_OUT + 1; fault++)
    for (int other = LISTSET_OK; other < fault; other += other == LISTSET_OK ? LISTSET_BAD_SEATS : 1)
      expect("sentences alike", strcmp(listset_fault_text((listset_fault)fault), listset_fault_text((listset_fault)other)) == 0, 0);
  expect("the version", listset_version_number(), LISTSET_VERSION_NUMBER);
}

int main(void) {
  listset_seat none = LISTSET_NONE;
  sentences();
  for (uint32_t key = 0; key <= MOST_KEYS; key++) many[key] = 4095 * key;
  calls_without_a_seat("an empty seat", &none);
  listset_drop(&none);
  refused_openings();
  for (uint8_t kind = LISTSET_COARSE; kind <= LISTSET_LOCK_FREE; kind++) {
    refused_at = 0;
    refused_calls(kind);
    calls_without_memory(kind);
    seats_within(kind);
    reads_and_receipts(kind);
    refused_renewals(kind);
    most_keys(kind);
    blocks = 0;
    for (size_t refused = 1; refused == 1 || asked >= refused - 1; refused++) {
      one_life(kind, refused);
      expect("blocks kept", blocks, 0);
    }
    for (size_t refused = 1; refused == 1 || asked >= refused - 1; refused++) {
      one_renewal(kind, refused);
      expect("blocks kept by a renewal", blocks, 0);
    }
    one_receipt(kind);
    expect("blocks kept by a receipt", blocks, 0);
  }
  return wrong != 0;
}
