// Executes the calls of foreign_calls.c from C++, and the same calls on a std::set under a lock and, if libcds is
// installed, on its skip list. (TBB's concurrent_set is not measured, because threads must not call its erase at the
// same time.)
#include <listset.hpp>

#include <cstdio>
#include <cstdlib>
#include <set>

#if __has_include(<cds/init.h>)
#include <cds/container/skip_list_set_hp.h>
#include <cds/gc/hp.h>
#include <cds/init.h>
#endif

using clock_type = std::chrono::steady_clock;

struct lists {
  std::vector<listset::seat> seats;
  lists(listset::list kind, uint32_t threads, const std::vector<uint32_t> &keys) {
    seats.push_back(listset::open(kind, threads, 16384, keys));
    while (seats.size() < threads) seats.push_back(seats.front().split());
  }
  bool add(size_t thread, uint32_t key) {
    const listset::added answer = seats[thread].add(key);
    if (answer == listset::added::is_full) std::abort();
    return answer == listset::added::is_true;
  }
  bool remove(size_t thread, uint32_t key) { return seats[thread].remove(key); }
  bool contains(size_t thread, uint32_t key) { return seats[thread].contains(key); }
};

struct locked_tree {
  std::mutex lock;
  std::set<uint32_t> keys;
  explicit locked_tree(const std::vector<uint32_t> &all) : keys(all.begin(), all.end()) {}
  bool add(size_t, uint32_t key) { return std::lock_guard<std::mutex>(lock), keys.insert(key).second; }
  bool remove(size_t, uint32_t key) { return std::lock_guard<std::mutex>(lock), keys.erase(key) > 0; }
  bool contains(size_t, uint32_t key) { return std::lock_guard<std::mutex>(lock), keys.count(key) > 0; }
};

#if __has_include(<cds/init.h>)
// libcds's skip list. Each thread registers with libcds before its first call.
struct skip_list {
  struct traits : cds::container::skip_list::traits {
    using less = std::less<uint32_t>;
  };
  struct attached {
    attached() { cds::threading::Manager::attachThread(); }
    ~attached() { cds::threading::Manager::detachThread(); }
  };
  cds::container::SkipListSet<cds::gc::HP, uint32_t, traits> keys;
  static attached &of_thread() {
    thread_local attached it;
    return it;
  }
  auto &here() { return static_cast<void>(of_thread()), keys; }
  explicit skip_list(const std::vector<uint32_t> &all) {
    for (uint32_t key : all) here().insert(key);
  }
  bool add(size_t, uint32_t key) { return here().insert(key); }
  bool remove(size_t, uint32_t key) { return here().erase(key); }
  bool contains(size_t, uint32_t key) { return here().contains(key); }
};
#endif

template <typename Set> static double nanoseconds(Set &set, uint32_t threads, uint32_t calls, uint32_t keys) {
  std::atomic<uint32_t> ready{0}, met{0};
  std::vector<std::thread> all;
  for (uint32_t thread = 0; thread < threads; thread++)
    all.emplace_back([&, thread] {
      uint64_t drawn = 88172645463325252u + thread;
      uint32_t found = 0;
      for (ready++; ready < threads + 1;) std::this_thread::yield();
      for (uint32_t call = 0; call < calls; call++) {
        drawn = drawn * 6364136223846793005u + 1442695040888963407u;
        const uint32_t key = static_cast<uint32_t>(drawn >> 33) % keys, kind = static_cast<uint32_t>(drawn >> 20) % 3;
        found += kind == 0 ? set.add(thread, key) : kind == 1 ? set.remove(thread, key) : set.contains(thread, key);
      }
      met += found;
    });
  while (ready < threads) std::this_thread::yield();
  const auto begun = clock_type::now();
  ready++;
  for (std::thread &it : all) it.join();
  return std::chrono::duration<double, std::nano>(clock_type::now() - begun).count() / (static_cast<double>(threads) * calls);
}

int main(int count, char **words) {
  if (count != 5) return 2;
  const std::string name = words[1];
  const uint32_t threads = std::atoi(words[2]), calls = std::atoi(words[3]), keys = std::atoi(words[4]);
  std::vector<uint32_t> opening;
  for (uint32_t key = 0; key < keys; key += 2) opening.push_back(key);
  double found = 0;
  if (name == "tree") {
    locked_tree set(opening);
    found = nanoseconds(set, threads, calls, keys);
#if __has_include(<cds/init.h>)
  } else if (name == "skip-list") {
    cds::Initialize();
    cds::gc::HP hazards(128);
    skip_list set(opening);
    found = nanoseconds(set, threads, calls, keys);
#endif
  } else if (name == "lazy" || name == "lock-free") {
    lists set(name == "lazy" ? listset::list::lazy : listset::list::lock_free, threads, opening);
    found = nanoseconds(set, threads, calls, keys);
  } else {
    return 2;
  }
  std::printf("%.2f\n", found);
}
