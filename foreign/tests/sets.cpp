// Tests the lists from C++: four threads add keys and remove some of them. A refused call must leave the seats unchanged.
#include "listset.hpp"

#include <algorithm>
#include <chrono>
#include <cstdio>
#include <future>
#include <thread>
#include <type_traits>

using listset::added;
using listset::list;
using listset::seat;

seat opened_elsewhere(); // defined in elsewhere.cpp

static_assert(!std::is_convertible_v<added, bool>, "what an `add` answers is no condition");
static_assert(!std::is_copy_constructible_v<seat> && !std::is_copy_assignable_v<seat>, "a seat is moved and not copied");

static int wrong = 0;

static void expect(bool holds, const char *what) {
  if (!holds) std::printf("wrong: %s\n", what), wrong++;
}

// Returns the code of the fault that a call throws, or 0.
template <typename Call> uint8_t thrown(Call call) {
  try {
    call();
    return LISTSET_OK;
  } catch (const listset::fault &fault) {
    return fault.code;
  }
}

// Returns whether the right keys remain after four threads each add a quarter of the keys below 4,000 and remove the
// multiples of three among them.
static bool is_right(list kind) {
  std::vector<seat> seats(4);
  seats[0] = listset::open(kind, 4, 1000);
  for (size_t at = 1; at < 4; at++) seats[at] = seats[0].split();
  std::atomic<int> full{0};
  std::vector<std::thread> threads;
  for (uint32_t at = 0; at < 4; at++)
    threads.emplace_back([&seats, &full, at] {
      for (uint32_t key = at; key < 4000; key += 4) full += seats[at].add(key) == added::is_full;
      for (uint32_t key = at; key < 4000; key += 4)
        if (key % 3 == 0) seats[at].remove(key);
    });
  for (std::thread &thread : threads) thread.join();
  for (size_t at = 1; at < 4; at++) seats[0].gather(std::move(seats[at]));
  std::vector<uint32_t> due;
  for (uint32_t key = 0; key < 4000; key++)
    if (key % 3 != 0) due.push_back(key);
  return full == 0 && seats[0].close() == due;
}

// Calls a `shared` set with three seats (a seat serves one call at a time) from four threads. Each thread adds a
// quarter of the keys below 4,000 and removes the multiples of three among them. Returns whether all replies are right
// and the right keys remain.
static bool is_right_shared(list kind) {
  listset::shared set(kind, 3, 2000);
  std::atomic<int> found{0};
  std::vector<std::thread> threads;
  for (uint32_t at = 0; at < 4; at++)
    threads.emplace_back([&set, &found, at] {
      for (uint32_t key = at; key < 4000; key += 4) found += set.add(key) == added::is_true && set.ceiling(key) == key && set.contains(key);
      for (uint32_t key = at; key < 4000; key += 4)
        if (key % 3 == 0) set.remove(key);
    });
  for (std::thread &thread : threads) thread.join();
  std::vector<uint32_t> due;
  for (uint32_t key = 0; key < 4000; key++)
    if (key % 3 != 0) due.push_back(key);
  return found == 4000 && set.contains(1) && set.ceiling(3) == 4u && set.close() == due;
}

// Adds more keys from several threads than all quotas together allow. Returns whether the adds that return true use up
// all quotas, and the set then has exactly the added keys.
static bool is_filled(uint32_t seats, uint32_t quota) {
  listset::shared set(list::lock_free, seats, quota); // The list is lock-free, so that a wrong call cannot leave a lock held.
  std::vector<std::vector<uint32_t>> added_by(4);
  std::vector<std::thread> threads;
  for (uint32_t at = 0; at < 4; at++)
    threads.emplace_back([&, at] {
      for (uint32_t key = at; key < 2000; key += 4)
        if (set.add(key) == added::is_true) added_by[at].push_back(key);
    });
  for (std::thread &thread : threads) thread.join();
  std::vector<uint32_t> due;
  for (const std::vector<uint32_t> &keys : added_by) due.insert(due.end(), keys.begin(), keys.end());
  std::sort(due.begin(), due.end());
  return due.size() == seats * quota && set.close() == due;
}

// Adds the same keys from four threads, exactly as many keys as all quotas together allow. Returns the number of adds
// that return full. The number must be 0: when all quotas are used up, all keys are present.
static int full_too_soon() {
  const uint32_t many = 1000;
  listset::shared set(list::lazy, 2, many / 2);
  std::atomic<int> full{0};
  std::vector<std::thread> threads;
  for (int at = 0; at < 4; at++)
    threads.emplace_back([&] {
      for (uint32_t key = 0; key < many; key++) full += set.add(key) == added::is_full;
    });
  for (std::thread &thread : threads) thread.join();
  return full;
}

// Returns the private member `places` (the seats) of a shared set. (An explicit instantiation may name private
// members.)
static auto &places_of(listset::shared &set);
template <auto Places> struct reach {
  friend auto &places_of(listset::shared &set) { return set.*Places; }
};
template struct reach<&listset::shared::places>;

// Returns whether a thread's calls end while all seats except number `free` are locked. (A call that waits for a locked
// seat ends only when the seats are unlocked.)
static bool end_by_one_seat(size_t free, size_t seats) {
  listset::shared set(list::lock_free, static_cast<uint32_t>(seats), 1);
  std::vector<std::unique_lock<std::mutex>> taken;
  for (size_t at = 0; at < seats; at++)
    if (at != free) taken.emplace_back(places_of(set)[at].lock);
  auto calls = [&] { return set.add(7) == added::is_true && set.contains(7) && set.ceiling(0) == 7u && set.remove(7); };
  std::future<bool> made = std::async(std::launch::async, calls);
  bool is_soon = made.wait_for(std::chrono::seconds(20)) == std::future_status::ready;
  taken.clear();
  return made.get() && is_soon;
}

// Returns whether the calls of two threads, one after the other, find the only free seat. At least one of the threads
// finds its first seat occupied.
static bool take_the_free_seat(size_t seats) {
  for (size_t free = 0; free < seats; free++)
    if (!end_by_one_seat(free, seats) || !end_by_one_seat(free, seats)) return false;
  return true;
}

// Checks that a set that was closed or moved from has no seat (one thread's access to the set).
static void expect_no_seat() {
  listset::shared closed(list::lazy, 2, 1), moved(list::lazy, 2, 1);
  seat last = listset::open(list::lazy, 1, 1, {7});
  closed.close(), last.close();
  expect(thrown([&] { closed.close(); }) == LISTSET_NONE_THERE && thrown([&] { last.close(); }) == LISTSET_NONE_THERE, "a set that is closed twice");
  for (int again = 0; again < 2; again++) expect(thrown([&] { closed.remove(1); }) == LISTSET_NONE_THERE, "a call of a closed set");
  listset::shared set = std::move(moved);
  expect(thrown([&] { moved.remove(1); }) == LISTSET_NONE_THERE && thrown([&] { moved.close(); }) == LISTSET_NONE_THERE, "a set that was moved from");
  expect(set.add(1) == added::is_true && set.close() == std::vector<uint32_t>({1}), "the set that it became");
}

static void expect_shared() {
  for (int round = 0; round < 20; round++) expect(is_filled(2, 50), "four threads use the quota of two seats");
  expect(is_filled(64, 1), "and that of 64");
  for (list kind : {list::coarse, list::fine, list::optimistic, list::lazy, list::lock_free}) expect(is_right_shared(kind), "shared keys");
  listset::shared few(list::lazy, 2, 1, {5});
  expect(few.add(1) == added::is_true && few.add(2) == added::is_true && few.add(3) == added::is_full, "each seat's quota is used");
  expect(few.add(1) == added::is_false && few.close() == std::vector<uint32_t>({1, 2, 5}), "shared, closed");
  expect(thrown([] { listset::shared(list::lazy, 65, 1); }) == LISTSET_BAD_SEATS, "too many shared seats");
  int full = 0;
  for (int round = 0; round < 20; round++) full += full_too_soon();
  expect(full == 0, "no add is full while a seat has quota");
  for (size_t seats : {2, 3, 8}) expect(take_the_free_seat(seats), "a call takes a seat that no other uses");
  expect_no_seat();
}

// Tests each operation with the smallest and the largest key. `Set` is a seat or a `shared` set.
template <typename Set> static void expect_ends(Set set) {
  const uint32_t most = UINT32_MAX;
  expect(set.ceiling(0) == 0u && set.ceiling(1) == most && set.ceiling(most) == most, "ceiling of the least and the greatest key");
  expect(set.contains(0) && set.remove(0) && !set.contains(0) && set.ceiling(0) == most, "the least key");
  expect(set.contains(most) && set.remove(most) && !set.contains(most) && !set.ceiling(0), "the greatest key");
  expect(set.add(0) == added::is_true && set.add(most) == added::is_true && set.ceiling(0) == 0u, "both again");
  expect(set.close() == std::vector<uint32_t>({0, most}), "both are left");
}

// Assigns a seat (one thread's access to the set) to a variable that already has a seat. The old set must then be
// freed, as the address sanitizer checks.
static void expect_assigned(list kind) {
  seat mine = listset::open(kind, 2, 1, {1}), other = listset::open(kind, 1, 1, {2});
  mine = std::move(other);
  expect(thrown([&] { other.contains(1); }) == LISTSET_NONE_THERE, "the seat that was moved away");
  seat &same = mine;
  mine = std::move(same);
  expect(mine.contains(2) && !mine.contains(1) && mine.close() == std::vector<uint32_t>({2}), "the seat that was assigned");
}

// Checks that a seat never gathers a seat of another set. Half of the sets are opened in another source file and
// another thread.
static void expect_apart() {
  seat mine = listset::open(list::lazy, 1, 0);
  const int many = 70000; // more sets than 16 bits can number
  int refused = 0;
  std::thread([&] {
    for (int at = 0; at < many; at++) {
      seat other = at % 2 == 0 ? opened_elsewhere() : listset::open(list::lazy, 1, 0);
      refused += thrown([&] { mine.gather(std::move(other)); }) == LISTSET_NO_GATHER;
    }
  }).join();
  expect(refused == many, "a seat of one of many sets");
  std::vector<seat> two;
  for (int at = 0; at < 2; at++) two.push_back(listset::open(list::lazy, 1, 0));
  expect(thrown([&] { two[0].gather(std::move(two[1])); }) == LISTSET_NO_GATHER, "two sets in turn");
  int apart = 0;
  const int rounds = 1000;
  for (int round = 0; round < rounds; round++) {
    std::atomic<int> ready{0};
    seat opened[2];
    const auto open_one = [&](int at) {
      for (ready++; ready < 2;) std::this_thread::yield();
      opened[at] = listset::open(list::lazy, 1, 0);
    };
    std::thread other(open_one, 1);
    open_one(0);
    other.join();
    apart += thrown([&] { opened[0].gather(std::move(opened[1])); }) == LISTSET_NO_GATHER;
  }
  expect(apart == rounds, "two sets that two threads open at once");
}

// Opens sets with the maximum number of keys, and with the smallest and the largest quota.
static void expect_limits() {
  std::vector<uint32_t> keys(1 << 20);
  for (uint32_t at = 0; at < keys.size(); at++) keys[at] = 4095 * at;
  expect(listset::open(list::lazy, 1, 0, keys).close() == keys, "the most opening keys");
  keys.push_back(UINT32_MAX);
  expect(thrown([&] { listset::open(list::lazy, 1, 0, keys); }) == LISTSET_BAD_KEYS, "one opening key more");
  expect(thrown([] { listset::open(list::lazy, 1, 1, {7, 7}); }) == LISTSET_BAD_KEYS, "a key twice");
  expect(thrown([] { listset::open(list::lazy, 1, 1, {9, 5}); }) == LISTSET_BAD_KEYS, "keys that fall");
  expect(thrown([] { listset::open(list::lazy, 1, 16385); }) == LISTSET_BAD_QUOTA, "too large a quota");
  expect(thrown([] { listset::open(list::lazy, 0, 1); }) == LISTSET_BAD_SEATS, "no seats");
  expect(listset::open(list::lazy, 1, 0).add(1) == added::is_full, "a quota of 0");
  seat most = listset::open(list::lazy, 1, 16384);
  uint32_t left = 16384;
  while (left > 0 && most.add(left) == added::is_true) left--;
  expect(left == 0 && most.add(0) == added::is_full, "the greatest quota");
}

int main() {
  expect_shared();
  expect_apart();
  expect_limits();
  for (list kind : {list::coarse, list::fine, list::optimistic, list::lazy, list::lock_free}) {
    expect_ends(listset::open(kind, 1, 2, {0, UINT32_MAX}));
    expect_ends<listset::shared>({kind, 2, 1, {0, UINT32_MAX}});
    expect_assigned(kind);
  }
  for (list kind : {list::coarse, list::fine, list::optimistic, list::lazy, list::lock_free}) expect(is_right(kind), "keys of a list");
  seat mine = listset::open(list::lazy, 2, 1, {5, 9}), split = mine.split(), other = listset::open(list::lazy, 1, 1), none;
  expect(thrown([&] { mine.split(); }) == LISTSET_NO_MORE, "no seat is left");
  expect(thrown([&] { mine.close(); }) == LISTSET_SEATS_OUT, "a seat is out");
  expect(thrown([&] { mine.gather(std::move(other)); }) == LISTSET_NO_GATHER, "a seat of another set");
  expect(thrown([&] { mine.gather(std::move(mine)); }) == LISTSET_NO_GATHER, "a seat into itself");
  expect(thrown([&] { static_cast<void>(none.add(1)); }) == LISTSET_NONE_THERE, "no seat");
  expect(thrown([] { listset::open(list::lazy, 65, 1); }) == LISTSET_BAD_SEATS, "too many seats");
  expect(split.add(7) == added::is_true && split.add(8) == added::is_full && mine.add(7) == added::is_false, "add");
  expect(mine.contains(5) && mine.remove(5) && !mine.contains(5) && !other.contains(9), "remove, contains");
  expect(mine.ceiling(6) == 7u && !mine.ceiling(10), "ceiling");
  mine.gather(std::move(split));
  expect(mine.close() == std::vector<uint32_t>({7, 9}), "close");
  expect(thrown([&] { mine.contains(7); }) == LISTSET_NONE_THERE, "a closed set");
  expect(other.close().empty(), "the other set is closed");
  return wrong != 0;
}
