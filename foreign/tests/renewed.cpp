// Tests `renew`, and sets that renew themselves. Eight threads call such a set. Their calls are recorded in the format of
// docs/YOUR-SET.md, and judged in this process. Arguments: a file for the recording, and the number of calls per thread.
// With two further arguments, a list (0 to 4) and a quota, tests only a set with this list and quota.
#include "listset.hpp"

#include <cstdio>
#include <cstdlib>
#include <future>

using listset::added;
using listset::list;
using listset::renewed_set;
using listset::seat;
using namespace std::chrono_literals;

constexpr uint32_t THREADS = 8, KEYS = 64, OPENING[] = {1, 7, 63};
constexpr list LISTS[] = {list::coarse, list::fine, list::optimistic, list::lazy, list::lock_free};

static int wrong = 0;

static void expect(bool holds, const char *what) {
  if (!holds) std::printf("wrong: %s\n", what), wrong++;
}

// Returns the code of the fault that a call throws, or 0.
template <typename Call> uint8_t thrown(Call call) {
  try {
    call();
    return LISTSET_OK;
  } catch (const listset::fault &fault) {
    return fault.code;
  }
}

struct recorded {
  uint64_t begin, end;
  uint32_t key;
  bool is_add, answer;
};

static std::atomic<uint64_t> tickets{1};

static std::vector<recorded> calls_of(renewed_set &set, uint32_t thread, size_t many) {
  std::vector<recorded> calls(many);
  renewed_set::own_seat mine = set.split();
  uint64_t drawn = 88172645463325252u + thread;
  for (recorded &it : calls) {
    drawn = drawn * 6364136223846793005u + 1442695040888963407u;
    it.key = (drawn >> 50) % KEYS, it.is_add = (drawn >> 40) % 2, it.begin = tickets++;
    if (it.is_add) {
      const added answer = mine.add(it.key);
      it.answer = answer == added::is_true;
      if (answer == added::is_full) std::abort();
    } else {
      it.answer = mine.remove(it.key);
    }
    it.end = tickets++;
  }
  return calls;
}

// Writes the calls of all threads, sorted by start, and the keys.
static void write(FILE *file, const std::vector<std::vector<recorded>> &calls, const std::vector<uint32_t> &keys) {
  std::fprintf(file, "listset-calls 1\n");
  for (uint32_t key : OPENING) std::fprintf(file, "opening %u\n", key);
  std::vector<size_t> at(calls.size());
  for (;;) {
    size_t next = calls.size();
    for (size_t it = 0; it < calls.size(); it++)
      if (at[it] < calls[it].size() && (next == calls.size() || calls[it][at[it]].begin < calls[next][at[next]].begin)) next = it;
    if (next == calls.size()) break;
    const recorded &call = calls[next][at[next]++];
    std::fprintf(file, "call %zu %s %u %llu %llu %s\n", next, call.is_add ? "add" : "remove", call.key, (unsigned long long)call.begin,
                 (unsigned long long)call.end, call.answer ? "true" : "false");
  }
  for (uint32_t key : keys) std::fprintf(file, "key %u\n", key);
  std::fprintf(file, "end\n");
}

// Returns whether the judge accepts calls of threads that add and remove the same keys while another thread calls
// `keys`.
static bool is_explained(const char *path, list kind, uint32_t quota, size_t many) {
  renewed_set set(kind, THREADS, quota, {std::begin(OPENING), std::end(OPENING)});
  std::vector<std::future<std::vector<recorded>>> threads;
  for (uint32_t it = 0; it < THREADS; it++) threads.push_back(std::async(std::launch::async, calls_of, std::ref(set), it, many));
  for (int asked = 0; asked < 20; asked++) expect(set.keys().size() <= KEYS, "keys while threads make calls");
  std::vector<std::vector<recorded>> calls;
  for (auto &it : threads) calls.push_back(it.get());
  std::vector<uint32_t> now = set.keys(), keys = set.close();
  expect(now == keys, "the keys of a set that no thread calls");
  FILE *file = std::fopen(path, "w+");
  if (file == nullptr) return false;
  write(file, calls, keys);
  std::rewind(file);
  std::string said(8192, '\0');
  uint8_t status = 1;
  said.resize(listset_judge_from(fileno(file), said.data(), said.size(), &status));
  std::fclose(file);
  std::printf("%s", said.c_str());
  return status == LISTSET_OK && said.rfind("ok " + std::to_string(THREADS * many) + " calls\n", 0) == 0;
}

// Returns the private places of a renewed set. (An explicit instantiation may name private members.)
static auto &places_of(renewed_set &set);
template <auto Places> struct reach {
  friend auto &places_of(renewed_set &set) { return set.*Places; }
};
template struct reach<&renewed_set::places>;

// Checks that no call waits for a thread between two calls, and that the calls of all other threads time out while one
// thread stays in a call.
static void expect_patience() {
  renewed_set set(list::lazy, 2, 2, {}, 20ms);
  auto mine = set.split(), rests = set.split();
  for (uint32_t key = 0; key < 100; key++) expect(mine.add(key) == added::is_true, "an add while another thread rests");
  {
    std::unique_lock<std::mutex> stays(places_of(set)[1].lock);
    expect(thrown([&] { static_cast<void>(mine.add(100)); }) == LISTSET_TIMED_OUT, "an add that times out");
    expect(mine.contains(99) && !mine.contains(100) && mine.remove(99), "calls from the seat that timed out");
    expect(thrown([&] { rests.remove(1); }) == LISTSET_TIMED_OUT && thrown([&] { set.keys(); }) == LISTSET_TIMED_OUT, "other calls");
  }
  expect(mine.add(100) == added::is_true && rests.add(101) == added::is_true && rests.ceiling(99) == 100u, "calls that go on");
}

// Expects that a call without a time limit waits while another thread stays in a call, and succeeds after the other thread's
// call.
static void expect_waits(list kind) {
  renewed_set set(kind, 2, 1);
  auto mine = set.split(), rests = set.split();
  expect(mine.add(1) == added::is_true, "an add before the quota is used");
  std::unique_lock<std::mutex> stays(places_of(set)[1].lock);
  auto waits = std::async(std::launch::async, [&] { return mine.add(2); });
  expect(waits.wait_for(50ms) == std::future_status::timeout, "an add that waits");
  stays.unlock();
  expect(waits.get() == added::is_true && rests.contains(2), "an add that has waited");
}

static void expect_seats() {
  renewed_set set(list::lock_free, 2, 1);
  {
    auto mine = set.split(), other = set.split();
    expect(thrown([&] { set.split(); }) == LISTSET_NO_MORE && thrown([&] { set.close(); }) == LISTSET_SEATS_OUT, "all seats are taken");
    auto moved = std::move(mine);
    expect(thrown([&] { mine.remove(1); }) == LISTSET_NONE_THERE && moved.add(1) == added::is_true, "a seat that was moved");
  }
  expect(set.split().add(2) == added::is_true, "a seat that was given back");
  expect(set.close() == std::vector<uint32_t>({1, 2}), "the keys of its threads");
  expect(thrown([&] { set.split(); }) == LISTSET_NONE_THERE && thrown([&] { set.keys(); }) == LISTSET_NONE_THERE, "a closed set");
  renewed_set none(list::lazy, 1, 0);
  expect(none.split().add(1) == added::is_full, "a quota of 0");
  expect(thrown([] { renewed_set(list::lazy, 65, 1); }) == LISTSET_BAD_SEATS, "too many seats");
}

// Checks that a set is not closed if it has more keys than a set can be opened with, and that an add then returns full.
static void expect_most_keys() {
  std::vector<uint32_t> keys(1 << 20);
  for (uint32_t at = 0; at < keys.size(); at++) keys[at] = 2 * at;
  renewed_set set(list::lazy, 1, 2, keys);
  {
    auto mine = set.split();
    expect(mine.add(1) == added::is_true && mine.add(3) == added::is_true && mine.add(5) == added::is_full, "the most keys");
    expect(thrown([&] { set.keys(); }) == LISTSET_BAD_KEYS && mine.contains(3), "keys that are too many");
    expect(mine.remove(0) && mine.remove(2) && mine.add(5) == added::is_true, "room again");
  }
  expect(set.close().size() == keys.size() + 1, "all keys");
}

// Calls `renew` several times. Each call opens a set of the next kind of list.
static void expect_by_hand() {
  std::vector<seat> seats;
  seats.push_back(listset::open(list::lazy, 3, 1, {5}));
  for (int at = 1; at < 3; at++) seats.push_back(seats[0].split());
  expect(seats[0].add(7) == added::is_true && seats[1].add(8) == added::is_true && seats[0].add(9) == added::is_full, "a quota");
  seat last = std::move(seats.back());
  seats.pop_back();
  expect(thrown([&] { listset::renew(seats, list::fine, 1, 9); }) == LISTSET_SEATS_OUT && seats[1].contains(8), "a seat is missing");
  seats.push_back(std::move(last));
  expect(thrown([&] { listset::renew(seats, list::fine, 65, 1); }) == LISTSET_BAD_SEATS, "too many seats");
  expect(thrown([&] { listset::renew(seats, list::fine, 1, 16385); }) == LISTSET_BAD_QUOTA, "too large a quota");
  for (list kind : LISTS) {
    listset::renew(seats, kind, 64, 1);
    expect(seats.size() == 64 && seats[63].ceiling(0) == 5u && seats[9].contains(7), "a set that was renewed");
    listset::renew(seats, kind, 2, 1);
  }
  expect(seats[1].add(9) == added::is_true && seats[0].remove(7), "calls of the last set");
  seats[0].gather(std::move(seats[1]));
  expect(seats[0].close() == std::vector<uint32_t>({5, 8, 9}), "its keys");
}

static void expect_reads_and_receipts(list kind) {
  seat mine = listset::open(kind, 2, 3, {5, 9}), other = mine.split(), apart = listset::open(kind, 1, 1);
  const bool blocks = kind != list::lazy && kind != list::lock_free;
  if (blocks) {
    expect(thrown([&] { mine.contains_now(5); }) == LISTSET_READS_BLOCK, "contains_now of a list that blocks");
  } else {
    expect(mine.contains_now(5) && !mine.contains_now(6) && mine.remove(5) && !mine.contains_now(5), "contains_now");
  }
  listset::receipt first = mine.receipt(), second = mine.receipt();
  expect(thrown([&] { apart.after(std::move(first)); }) == LISTSET_NO_GATHER, "a receipt of another set");
  std::thread([&] { other.after(std::move(second)); }).join();
  expect(thrown([&] { other.after(std::move(second)); }) == LISTSET_NONE_THERE, "a receipt that was taken");
  other.after(std::move(first));
  expect(listset::most_reads(2, 3, 2) == 18 && listset::most_reads(65, 1, 1) == 0, "most_reads");
}

// Calls one seat in two threads at the same time. Expects that each call succeeds or throws.
static void expect_two_users() {
  seat mine = listset::open(list::coarse, 1, 16384);
  std::atomic<int> made{0}, refused{0}, ready{0};
  const auto run = [&](uint32_t first) {
    for (ready++; ready < 2;) std::this_thread::yield();
    for (uint32_t key = first; key < 16384; key += 2) {
      const uint8_t code = thrown([&] { made += mine.add(key) == added::is_true; });
      refused += code == LISTSET_NONE_THERE;
    }
  };
  std::thread other(run, 1);
  run(0);
  other.join();
  expect(made + refused == 16384 && mine.close().size() == static_cast<size_t>(made), "a seat in two threads");
}

int main(int count, char **words) {
  const size_t many = count > 2 ? std::strtoull(words[2], nullptr, 10) : 5000;
  if (count < 2) return 2;
  if (count > 4) return !is_explained(words[1], LISTS[std::atoi(words[3]) % 5], static_cast<uint32_t>(std::atoi(words[4])), many);
  expect_patience();
  expect_seats();
  expect_most_keys();
  expect_by_hand();
  expect_two_users();
  for (list kind : LISTS) {
    expect_reads_and_receipts(kind);
    expect_waits(kind);
    expect(is_explained(words[1], kind, kind == list::lazy ? 16384 : 100, many), "calls of eight threads");
  }
  return wrong != 0;
}
