// listset.hpp: sorted-list sets that threads share, and the judge of their calls, for C++17: a wrapper around
// listset.h. listset.h documents each function of the judge and the duties of the caller.
//
//     listset::said verdict = listset::judge_text(recording);
//     if (!verdict.is_ok()) std::cerr << verdict.text;
//
//     listset::seat mine = listset::open(listset::list::lazy, 2, 1000), other = mine.split();
//     if (mine.add(7) == listset::added::is_true) ..   // and `other` in another thread
//     mine.gather(std::move(other));
//     std::vector<uint32_t> keys = mine.close();
#ifndef LISTSET_HPP
#define LISTSET_HPP

#include "listset.h"

#include <algorithm>
#include <array>
#include <atomic>
#include <chrono>
#include <deque>
#include <mutex>
#include <optional>
#include <stdexcept>
#include <string>
#include <string_view>
#include <thread>
#include <utility>
#include <vector>

namespace listset {

/// Returns the library's version text of four lines, as `listset_version` does.
inline std::string_view version() { return listset_version(); }

/// The text that the program `listset` would print, and its exit status.
struct said {
  std::string text;
  unsigned status;

  bool is_ok() const { return status == LISTSET_OK; }
};

/// Calls `call(room, size, &status)`. If the buffer was too short, repeats the call with a larger buffer. Throws
/// std::bad_alloc if an allocation fails.
template <typename Call> said said_by(Call call) {
  said made{std::string(4096, '\0'), LISTSET_OK};
  for (;;) {
    uint8_t status = LISTSET_OK;
    size_t length = call(made.text.data(), made.text.size(), &status);
    made.status = status;
    bool fits = length <= made.text.size();
    made.text.resize(length);
    if (fits) return made;
  }
}

/// Returns `text`, with a pointer that is not null even if the text is empty.
inline std::string_view placed(std::string_view text) { return text.data() == nullptr ? std::string_view("") : text; }

/// Calls a function of the judge with a text.
inline said of_text(listset_function *function, std::string_view given) {
  std::string_view text = placed(given);
  return said_by([&](char *room, size_t size, uint8_t *status) { return function(text.data(), text.size(), room, size, status); });
}

/// Runs a schedule (calls, and the order of the threads' steps) and returns its report (the calls with their replies,
/// and an order that explains them).
inline said replay(std::string_view schedule) { return of_text(listset_replay, schedule); }
/// Judges a recording (calls of any set, with their replies and times). Returns `ok N calls` if some order explains the
/// recorded calls, otherwise calls that show why no order explains the recording.
inline said judge_text(std::string_view recording) { return of_text(listset_judge, recording); }
/// Diagnoses a recording that `judge_text` refuses. The result has the status LISTSET_WRONG_TEXT and a text with calls
/// that show the error, the wrong operation, how often it is wrong, and a likely cause. The text is empty if some order
/// explains the recording, or if the argument is not a recording.
inline said why(std::string_view recording) { return of_text(listset_why, recording); }
/// Returns `ok` if the order in a report explains the report's calls, otherwise the first error in the order.
inline said check(std::string_view report) { return of_text(listset_check, report); }
/// Expands a draft (a schedule that states where threads stop rather than how many steps they make) into a schedule.
inline said draft(std::string_view draft) { return of_text(listset_draft, draft); }
/// Returns the schedule of the example called `name`.
inline said example(std::string_view name) { return of_text(listset_example, name); }
/// Returns the broken report of the example called `name`: the report of a run on a list without the check that the
/// example is about.
inline said broken_example(std::string_view name) { return of_text(listset_broken_example, name); }
/// Returns the names of all examples, each with its list and a description.
inline said examples() { return said_by(listset_examples); }
/// Returns a line about each error message, and a sentence about each cause.
inline said faults() { return said_by(listset_faults); }

/// Returns the trace of a schedule: a line for each event (a step, or the start of a call). If `with_chains`, the trace
/// includes the chain of nodes after each event that changed the chain.
inline said trace(std::string_view schedule, bool with_chains = false) {
  return of_text(with_chains ? listset_trace_with_chains : listset_trace, schedule);
}

/// The part of a run to draw: the first and the last moment (numbers of events in the run), and the number of columns.
/// 0 selects the default for each of these numbers.
using window = listset_window;

/// Draws a schedule or a report, as text or as an SVG.
inline said show(std::string_view given, const window &asked = {}, bool as_svg = false) {
  std::string_view text = placed(given);
  return said_by([&](char *room, size_t size, uint8_t *status) {
    return (as_svg ? listset_draw_svg : listset_draw)(text.data(), text.size(), &asked, room, size, status);
  });
}

/// Generates a random schedule. `kind` is coarse, fine, optimistic, lazy or lock-free.
inline said gen(const std::string &kind, uint32_t threads, uint32_t quota, uint32_t calls, uint32_t keys, uint64_t seed) {
  const listset_plan plan = {kind.c_str(), threads, quota, calls, keys, seed};
  return said_by([&](char *room, size_t size, uint8_t *status) { return listset_generate(&plan, room, size, status); });
}

/// The five lists.
enum class list : uint8_t { coarse, fine, optimistic, lazy, lock_free };

/// The reply of `add`. `is_full` means that the key is absent but the seat (one thread's access to the set) has used up
/// its quota of adds. A reply cannot be used as a condition: compare it with a value of `added`.
enum class [[nodiscard]] added : uint8_t { is_false, is_true, is_full };

/// Thrown if a call is refused; `code` is the reason. LISTSET_NONE_THERE means that the seat was moved from, dropped,
/// gathered or closed, or that another thread is making a call through the seat.
struct fault : std::runtime_error {
  listset_fault code;

  explicit fault(listset_fault code) : std::runtime_error(std::string("listset: ") + listset_fault_text(code)), code(code) {}
};

/// Returns the keys of a closed set.
inline std::vector<uint32_t> keys_of(listset_seat &closed) {
  uint32_t none = 0;
  std::vector<uint32_t> keys(listset_keys(&closed, &none, 0));
  if (!keys.empty()) listset_keys(&closed, keys.data(), keys.size());
  return keys;
}

/// A receipt (proof of the calls that a seat has made so far), or nothing. A receipt also covers the calls of merged
/// seats and of accepted receipts. In the order of all calls, the covered calls precede the later calls of each seat
/// that accepts the receipt. A receipt can be moved but not copied, and can be passed to any thread.
class receipt {
public:
  receipt() = default;
  receipt(receipt &&other) noexcept : raw(std::exchange(other.raw, listset_receipt LISTSET_NONE)) {}
  receipt &operator=(receipt &&other) noexcept {
    std::swap(raw, other.raw);
    return *this;
  }
  ~receipt() { listset_drop_receipt(&raw); }

private:
  listset_receipt raw = LISTSET_NONE;
  friend class seat;
};

/// Returns the maximum number of steps of `seat::contains_now` on a list that is opened for `seats` threads, with the
/// quota `quota` and with `opening` keys. Returns 0 if no set can be opened with these numbers.
inline uint64_t most_reads(uint32_t seats, uint32_t quota, uint32_t opening) { return listset_most_reads(seats, quota, opening); }

/// A thread's seat (its access to a set), or nothing. A seat can be moved but not copied, and only one thread at a time
/// may use it. A call throws `fault` if another thread is making a call through the same seat. Seats are aligned to
/// cache lines, because each call writes to its seat.
class alignas(128) seat {
public:
  seat() = default;
  seat(seat &&other) noexcept : raw(std::exchange(other.raw, listset_seat LISTSET_NONE)) {}
  seat &operator=(seat &&other) noexcept {
    seat moved(std::move(other)); // The destructor of `moved` drops the old contents of this seat.
    std::swap(raw, moved.raw);
    return *this;
  }
  ~seat() { listset_drop(&raw); }

  /// Splits a seat off this seat, so that one more thread can call the set.
  seat split() {
    use held(*this);
    seat made;
    tell(listset_split(&raw, &made.raw));
    return made;
  }

  /// Adds a key. Returns `is_true` if the key was absent, `is_false` if it was present. Returns `is_full` if the key is
  /// absent but the seat has used up its quota of adds.
  added add(uint32_t key) { return static_cast<added>(by(listset_add, key)); }

  /// Removes a key. Returns whether the key was present.
  bool remove(uint32_t key) { return by(listset_remove, key) == LISTSET_TRUE; }

  /// Returns whether a key is in the set.
  bool contains(uint32_t key) { return by(listset_contains, key) == LISTSET_TRUE; }

  /// Returns whether a key is in the set, like `contains`, but waits for no lock and executes at most `most_reads`
  /// steps, whatever other threads do. Only for lazy and lock-free lists: on any other list, throws with
  /// LISTSET_READS_BLOCK.
  bool contains_now(uint32_t key) {
    listset_answer answer = by(listset_contains_now, key);
    if (answer == LISTSET_MAY_BLOCK) throw fault(LISTSET_READS_BLOCK);
    return answer == LISTSET_TRUE;
  }

  /// Returns the smallest key of the set that is at least `key`. On a lock-free list, the call can wait until another
  /// thread adds or removes a key.
  std::optional<uint32_t> ceiling(uint32_t key) {
    use held(*this);
    uint32_t at = 0;
    return replied(listset_ceiling(&raw, key, &at)) == LISTSET_AT ? std::optional<uint32_t>(at) : std::nullopt;
  }

  /// Returns a receipt (a record of this seat's calls so far). Pass the receipt to `after` of another thread's seat.
  listset::receipt receipt() {
    use held(*this);
    listset::receipt made;
    tell(listset_receipt_of(&raw, &made.raw));
    return made;
  }

  /// Accepts a receipt (a record of another seat's calls). In the order of all calls, later calls of this seat follow
  /// every call that the receipt covers. If `after` throws, the seat and the receipt are unchanged.
  void after(listset::receipt &&given) {
    use held(*this);
    tell(listset_after(&raw, &given.raw));
  }

  /// Merges another seat (another thread's access to the set) into this seat. If `gather` throws, both seats are
  /// unchanged.
  void gather(seat &&from) {
    if (&from == this) throw fault(LISTSET_NO_GATHER);
    use held(*this), other(from);
    tell(listset_gather(&raw, &from.raw));
  }

  /// Closes the set and returns its final keys. Every seat of the set (one for each thread) must be part of this seat,
  /// that is, either never split off or merged back. If `close` throws, nothing is lost, and the call can be repeated.
  std::vector<uint32_t> close() {
    use held(*this);
    const listset_fault code = listset_close(&raw);
    uint32_t none = 0;
    if (listset_keys(&raw, &none, 0) == SIZE_MAX) throw fault(code);
    std::vector<uint32_t> keys = keys_of(raw);
    listset_drop(&raw);
    return keys;
  }

private:
  listset_seat raw = LISTSET_NONE;
  std::atomic<bool> is_used{false};

  // Marks a seat as in use during a call. The constructor throws if another thread is using the seat.
  class use {
    seat &of;

  public:
    explicit use(seat &it) : of(it) {
      if (of.is_used.exchange(true, std::memory_order_acquire)) throw fault(LISTSET_NONE_THERE);
    }
    use(const use &) = delete;
    ~use() { of.is_used.store(false, std::memory_order_release); }
  };

  listset_answer by(listset_reply (*call)(listset_seat *, uint32_t), uint32_t key) {
    use held(*this);
    return replied(call(&raw, key));
  }

  static void tell(listset_fault code) {
    if (code != LISTSET_OK) throw fault(code);
  }

  static listset_answer replied(listset_reply reply) {
    if (reply.is == LISTSET_NO_SEAT) throw fault(LISTSET_NONE_THERE);
    return reply.is;
  }

  friend seat open(list, uint32_t, uint32_t, const std::vector<uint32_t> &);
  friend void renew(std::vector<seat> &, list, uint32_t, uint32_t);
  friend class renewed_set;
};

/// Returns a number that no earlier set of the program has.
inline uint64_t next_number() {
  static std::atomic<uint64_t> sets{0};
  return sets++;
}

/// Opens a set with keys in strictly increasing order. Returns a seat (one thread's access to the set). All other seats
/// can be split off this seat.
inline seat open(list kind, uint32_t seats, uint32_t quota, const std::vector<uint32_t> &keys = {}) {
  seat made;
  uint32_t none = 0;
  const uint32_t *first = keys.empty() ? &none : keys.data();
  seat::tell(listset_open(static_cast<listset_list>(kind), seats, quota, next_number(), first, keys.size(), &made.raw));
  return made;
}

/// Closes a set, and opens a set of the list `kind` with the same keys. `seats` must contain all seats (one for each
/// thread) of the old set. Afterwards, `seats` contains the `count` seats of the new set, each with the quota `quota`.
/// If `renew` throws, nothing is lost: `seats` contains all seats or the closed set, and the call can be repeated.
inline void renew(std::vector<seat> &seats, list kind, uint32_t count, uint32_t quota) {
  if (count > 64) throw fault(LISTSET_BAD_SEATS);
  seats.resize(std::max<size_t>(seats.size(), count));
  std::vector<listset_seat> raws;
  for (seat &it : seats) raws.push_back(std::exchange(it.raw, listset_seat LISTSET_NONE));
  const listset_fault code = listset_renew(raws.data(), raws.size(), static_cast<listset_list>(kind), count, quota, next_number());
  for (size_t at = 0; at < seats.size(); at++) seats[at].raw = raws[at];
  seat::tell(code);
  seats.resize(count);
}

/// A set that renews itself: when a seat (one thread's access) has used up its quota of adds, a new set with the same
/// keys replaces the set.
///
/// A thread gets its own seat from `split`; the seat's destructor returns the seat to the set. Calls wait during a
/// renewal. The renewal waits for pending calls, but not for threads that are between two calls. A call waits for other
/// calls for at most `patience`. After that, the call throws with LISTSET_TIMED_OUT and has no effect. docs/FOREIGN.md
/// states the promised order of calls.
class renewed_set {
  // A place in the set: a seat with its lock, and whether a thread has the seat.
  struct alignas(128) place {
    std::mutex lock;
    listset_seat raw = LISTSET_NONE;
    uint32_t adds = 0, removes = 0; // The numbers of adds and of removes that changed the set since it was last opened.
    std::atomic<bool> is_taken{false};
  };
  enum class stage { open, to_be_renewed, closed };
  using clock = std::chrono::steady_clock;
  using held = std::unique_lock<std::mutex>;

  const list kind;
  const uint32_t quota;
  const std::chrono::nanoseconds patience;
  std::mutex renewing; // A thread locks this before it locks all places (the seats with their locks).
  std::atomic<bool> is_wanted{false}; // Whether a thread has waited so long for the locks that other threads' calls must wait.
  std::deque<place> places;
  // The stage and the number of keys at the start change only while all places (the seats with their locks) are locked.
  stage now = stage::open;
  size_t opened_with;

  static constexpr size_t MOST_OPENING = 1 << 20;
  static constexpr std::chrono::milliseconds LONG{5};

  // Locks `lock`. On a lock-free list, the holder of `lock` can be in a `ceiling` that retries until another call
  // unlinks a marked node. If the seat in `helper` has used up its quota of adds, the waiting thread therefore calls
  // `add` with the seat: the `add` unlinks the node, but adds no key.
  //
  // `helper` is the caller's own place (its seat with the seat's lock) if the caller is locking all places, otherwise
  // null. After a caller with a `helper` has waited for 5 ms, new calls of other threads wait too, except calls that
  // could be needed to unlink the node.
  held taken(std::mutex &lock, place *helper = nullptr) {
    held it(lock, std::try_to_lock);
    for (const clock::time_point begun = clock::now(); !it; it.try_lock()) {
      const auto waited = clock::now() - begun;
      if (waited > patience) throw fault(LISTSET_TIMED_OUT);
      const bool is_full = helper && helper->adds == quota;
      if (kind == list::lock_free && is_full && now == stage::open) static_cast<void>(add_from(*helper, UINT32_MAX));
      if (helper && (kind != list::lock_free || is_full) && waited > LONG) is_wanted = true;
      // The thread sleeps at once: with a quota of 100, calls were 1.1 to 4 times slower if it first yielded the
      // processor.
      std::this_thread::sleep_for(std::chrono::microseconds(50));
    }
    return it;
  }

  // Holds the locks of all places (the seats of the set) during its lifetime.
  class all_taken {
    std::atomic<bool> &is_wanted;
    held one;
    std::vector<held> all;

  public:
    all_taken(renewed_set &set, place &mine) : is_wanted(set.is_wanted), one(set.taken(set.renewing)) {
      try {
        all.push_back(set.taken(mine.lock));
        for (place &it : set.places)
          if (&it != &mine) all.push_back(set.taken(it.lock, &mine));
        if (set.now == stage::closed) throw fault(LISTSET_NONE_THERE);
      } catch (...) {
        is_wanted = false;
        throw;
      }
    }
    all_taken(const all_taken &) = delete;
    ~all_taken() { is_wanted = false; }
  };

  size_t keys_now() const {
    size_t keys = opened_with;
    for (const place &it : places) keys = keys + it.adds - it.removes;
    return keys;
  }

  // Calls `call` with an array of all seats. All places (seats with their locks) must be locked.
  template <typename Call> void by_all(Call call) {
    std::array<listset_seat, 64> raws;
    now = stage::to_be_renewed;
    for (size_t at = 0; at < places.size(); at++) raws[at] = places[at].raw;
    const listset_fault code = call(raws.data(), static_cast<uint32_t>(places.size()));
    for (size_t at = 0; at < places.size(); at++) places[at].raw = raws[at];
    seat::tell(code);
  }

  std::vector<uint32_t> close_taken() {
    by_all([](listset_seat *raws, uint32_t count) { return listset_close_all(raws, count); });
    return keys_of(places.front().raw);
  }

  void renew_taken() {
    by_all([&](listset_seat *raws, uint32_t count) {
      return listset_renew(raws, count, static_cast<listset_list>(kind), count, quota, next_number());
    });
    opened_with = keys_now();
    for (place &it : places) it.adds = it.removes = 0;
    now = stage::open;
  }

  // Calls `call` with `mine`, the thread's place (its seat with the seat's lock). If an allocation failed during the last
  // renewal, renews the set first.
  template <typename Call> auto by(place &mine, Call call) {
    for (;;) {
      if (is_wanted) taken(renewing).unlock();
      if (held it = taken(mine.lock); now == stage::open) return call(mine);
      all_taken all(*this, mine);
      if (now != stage::open) renew_taken();
    }
  }

  static added add_from(place &mine, uint32_t key) {
    const added answer = static_cast<added>(seat::replied(listset_add(&mine.raw, key)));
    mine.adds += answer == added::is_true;
    return answer;
  }

  // Adds a key with the seat in `mine` (the thread's access to the set), after an `add` returned full. Renews the set
  // if an earlier renewal failed, or if `add` returns full again. Does not renew the set if a renewal cannot help (the
  // quota is 0, or the set has too many keys).
  added add_renewed(place &mine, uint32_t key) {
    all_taken all(*this, mine);
    if (now == stage::open) {
      const added answer = add_from(mine, key); // Before this call, another thread could have renewed the set.
      if (answer != added::is_full || keys_now() > MOST_OPENING || quota == 0) return answer;
    }
    renew_taken();
    return add_from(mine, key);
  }

public:
  /// A thread's seat (its access to the set). Only one thread at a time may use the seat. The set must outlive the
  /// seat.
  class own_seat {
    renewed_set *set;
    place *mine;
    friend class renewed_set;
    own_seat(renewed_set *set, place *mine) : set(set), mine(mine) {}

    template <typename Call> auto by(Call call) {
      if (mine == nullptr) throw fault(LISTSET_NONE_THERE);
      return set->by(*mine, call);
    }

  public:
    own_seat(own_seat &&other) noexcept : set(other.set), mine(std::exchange(other.mine, nullptr)) {}
    own_seat &operator=(own_seat &&other) noexcept {
      std::swap(set, other.set), std::swap(mine, other.mine);
      return *this;
    }
    ~own_seat() {
      if (mine != nullptr) mine->is_taken = false;
    }

    /// Adds a key, and renews the set if the thread's seat has used up its quota of adds. Returns `is_full` only if the
    /// quota is 0, or if the set has more than 1,048,576 keys (the maximum for opening a set).
    added add(uint32_t key) {
      const auto call = [&](place &it) { return add_from(it, key); };
      added answer = by(call);
      if (answer == added::is_full) {
        set->taken(set->renewing).unlock(); // Waits while another thread renews the set.
        answer = by(call);
      }
      return answer == added::is_full ? set->add_renewed(*mine, key) : answer;
    }

    /// Removes a key. Returns whether the key was present.
    bool remove(uint32_t key) {
      return by([&](place &it) {
        const bool was_there = seat::replied(listset_remove(&it.raw, key)) == LISTSET_TRUE;
        it.removes += was_there;
        return was_there;
      });
    }

    /// Returns whether a key is in the set.
    bool contains(uint32_t key) {
      return by([&](place &it) { return seat::replied(listset_contains(&it.raw, key)) == LISTSET_TRUE; });
    }

    /// Returns the smallest key of the set that is at least `key`. Can block, like `seat::ceiling`.
    std::optional<uint32_t> ceiling(uint32_t key) {
      return by([&](place &it) {
        uint32_t at = 0;
        return seat::replied(listset_ceiling(&it.raw, key, &at)) == LISTSET_AT ? std::optional<uint32_t>(at) : std::nullopt;
      });
    }
  };

  /// Opens a set with 1 to 64 seats (one for each thread) and with keys in strictly increasing order. A seat can add
  /// `quota` keys before the set is renewed.
  renewed_set(list kind, uint32_t seats, uint32_t quota, const std::vector<uint32_t> &keys = {},
              std::chrono::nanoseconds patience = std::chrono::nanoseconds::max())
      : kind(kind), quota(quota), patience(patience), opened_with(keys.size()) {
    std::vector<seat> all;
    all.push_back(open(kind, seats, quota, keys));
    while (all.size() < seats) all.push_back(all.front().split());
    for (seat &it : all) places.emplace_back().raw = std::exchange(it.raw, listset_seat LISTSET_NONE);
  }
  renewed_set(const renewed_set &) = delete;
  ~renewed_set() {
    for (place &it : places) listset_drop(&it.raw);
  }

  /// Returns a seat (one thread's access to the set). Throws with LISTSET_NO_MORE if all seats are in use.
  own_seat split() {
    for (place &it : places)
      if (!it.is_taken.exchange(true)) {
        own_seat mine(this, &it);
        const held at = taken(it.lock);
        if (now == stage::closed) throw fault(LISTSET_NONE_THERE);
        return mine;
      }
    throw fault(LISTSET_NO_MORE);
  }

  /// Renews the set and returns its keys at the renewal. Throws with LISTSET_BAD_KEYS if the set has more than
  /// 1,048,576 keys.
  std::vector<uint32_t> keys() {
    all_taken all(*this, places.front());
    if (keys_now() > MOST_OPENING) throw fault(LISTSET_BAD_KEYS);
    std::vector<uint32_t> keys = close_taken();
    renew_taken();
    return keys;
  }

  /// Closes the set and returns its final keys. If a thread has a seat, throws with LISTSET_SEATS_OUT and does not change the
  /// set.
  std::vector<uint32_t> close() {
    all_taken all(*this, places.front());
    for (place &it : places)
      if (it.is_taken) throw fault(LISTSET_SEATS_OUT);
    std::vector<uint32_t> keys = close_taken();
    listset_drop(&places.front().raw);
    now = stage::closed;
    return keys;
  }
};

/// A set that any number of threads may call, with a pool of seats (each serves one call at a time). A call uses a seat
/// that no other call is using, or waits until a seat is free. Two calls of one thread can use different seats, so not
/// even the order of a thread's own calls is guaranteed.
class shared {
  struct alignas(128) place {
    std::mutex lock;
    seat mine;
  };
  std::deque<place> places;

  // Returns the place (a seat with its lock) into which all seats are merged when the set is closed. Throws if the set
  // was moved from.
  place &first() {
    if (places.empty()) throw fault(LISTSET_NONE_THERE);
    return places.front();
  }

  // Calls `call` with a free seat (one thread's access to the set). Threads begin their search for a free seat at
  // different seats, if there are enough seats.
  template <typename Call> auto by(Call call) {
    first();
    static std::atomic<size_t> threads{0};
    thread_local const size_t mine = threads++;
    for (size_t tried = 0; tried < places.size(); tried++) {
      place &it = places[(mine + tried) % places.size()];
      if (std::unique_lock<std::mutex> held(it.lock, std::try_to_lock); held) return call(it.mine);
    }
    place &it = places[mine % places.size()];
    std::lock_guard<std::mutex> held(it.lock);
    return call(it.mine);
  }

public:
  /// Opens a set with keys in strictly increasing order. Up to `seats` calls (1 to 64) can run at the same time.
  shared(list kind, uint32_t seats, uint32_t quota, const std::vector<uint32_t> &keys = {}) {
    places.emplace_back().mine = open(kind, seats, quota, keys);
    while (places.size() < seats) places.emplace_back().mine = places.front().mine.split();
  }

  /// Adds a key. Returns `is_full` if the key is absent but every seat (each serves one call at a time) has used up its
  /// quota of adds.
  added add(uint32_t key) {
    added answer = by([&](seat &it) { return it.add(key); });
    for (auto at = places.begin(); answer == added::is_full && at != places.end(); ++at) {
      std::lock_guard<std::mutex> held(at->lock);
      answer = at->mine.add(key);
    }
    return answer;
  }

  /// Removes a key. Returns whether the key was present.
  bool remove(uint32_t key) { return by([&](seat &it) { return it.remove(key); }); }

  /// Returns whether a key is in the set.
  bool contains(uint32_t key) { return by([&](seat &it) { return it.contains(key); }); }

  /// Returns the smallest key of the set that is at least `key`. Can block, like `seat::ceiling`.
  std::optional<uint32_t> ceiling(uint32_t key) { return by([&](seat &it) { return it.ceiling(key); }); }

  /// Closes the set and returns its final keys. No later call may use the set. If an allocation fails, throws, and
  /// `close` can be repeated.
  std::vector<uint32_t> close() {
    seat &all = first().mine;
    for (; places.size() > 1; places.pop_back()) all.gather(std::move(places.back().mine));
    return all.close();
  }
};

} // namespace listset
#endif
