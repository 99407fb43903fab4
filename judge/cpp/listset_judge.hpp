// Tests whether your own concurrent set is linearizable, in one line of a test:
//
//     auto verdict = listset::judge<MySet>();
//     ASSERT_TRUE(verdict) << verdict;             // GoogleTest; any other: if (!verdict) std::cerr << verdict
//
// MySet has add, remove and contains; or insert, erase, and contains or count. Threads call new sets. The start and the
// end of each call are recorded. A judge decides whether some order of the calls explains their replies.
//
// The judge is liblistset if <listset.h> is included before this file. Otherwise it is the program named by the
// environment variable LISTSET or, if that is not set, `listset` in PATH. If LISTSET names a listset.js, node runs the
// file. If LISTSET is `skip`, nothing is judged.
//
// If the test's process has only one thread, each run gets its own process. If a set crashes or hangs in a run's own
// process, the calls made so far are judged. Requires C++17, -pthread and a POSIX system.
#pragma once
#include <algorithm>
#include <atomic>
#include <cctype>
#include <cerrno>
#include <chrono>
#include <csignal>
#include <cstdint>
#include <cstdio>
#include <cstdlib>
#include <cstring>
#include <ctime>
#include <exception>
#include <filesystem>
#include <fstream>
#include <functional>
#include <iterator>
#include <locale>
#include <map>
#include <memory>
#include <new>
#include <optional>
#include <ostream>
#include <random>
#include <sstream>
#include <stdexcept>
#include <string>
#include <system_error>
#include <thread>
#include <type_traits>
#include <utility>
#include <vector>
#include <sys/mman.h>
#include <sys/wait.h>
#include <unistd.h>
#ifdef __linux__
#include <sys/prctl.h>
#include <sys/syscall.h>
#endif

// Declarations of parts of GoogleTest. A test can include GoogleTest before or after this file, or not at all.
namespace testing {
class Message;
class TestPartResult;
namespace internal {
class AssertHelper;
}
}  // namespace testing

namespace listset {
// The name of the inner namespace depends on whether LISTSET_H is defined, because LISTSET_H can be defined in one file
// of a program and not in another.
#ifdef LISTSET_H
inline namespace judged_by_library {
#else
inline namespace judged_by_program {
#endif

/// Options of a test. All are checked before the first set is created. The runs of a test cycle through seven presets
/// (built-in numbers of threads, calls and keys).
struct options {
    /// The number of threads that call a set at the same time: 1 to 64. 0 selects the preset's number.
    unsigned threads = 0;
    /// The number of calls of each thread: at least 1, and at most 1,000,000,000 for all threads together. 0 selects
    /// the preset's number. After every 20,000 calls of all threads together, the threads wait until the calls are
    /// written to the recording's file.
    unsigned calls = 0;
    /// The number of keys: 1 to 1,048,576. 0 selects the preset's number. With more than eight keys, half of the calls
    /// use the first four.
    unsigned keys = 0;
    /// How often a thread pauses before a call, in percent: 0 to 100. A pause lasts at most a few microseconds. If
    /// `pauses` is not 0 and the set has its own process, the signal SIGURG also interrupts threads during calls.
    unsigned pauses = 20;
    /// The number of runs: 1 to 1,000,000. A run calls one set, or several new sets one after another.
    unsigned runs = 20;
    /// The random seed for the calls, keys and pauses of the first run. Each later run uses the next seed. If the first seed
    /// is not 1, no further runs follow a refusal.
    unsigned seed = 1;
    /// A run is considered hung, and is cut short, if no call begins or ends for this many seconds: 1 to 3,600.
    unsigned seconds = 30;
    /// The time limit for the test in seconds: 1 to 604,800. No run starts after the limit.
    unsigned within = 60;
    /// The verdict is false if less than this percentage of the calls overlap a call that adds or removes the same key.
    unsigned at_least = 0;
    /// The relative frequencies of add, remove and contains.
    unsigned adds = 1, removes = 1, finds = 1;
    /// If false, sets are called in the test's process. The process then crashes or hangs with a set. Useful for
    /// debuggers and coverage.
    bool own_process = true;
    /// If true, `contains` is called for each key before all other calls to record the opening keys.
    bool opens_with_keys = false;
    /// Called in each thread that creates or calls a set: `begins` when the thread begins, `ends` when it ends.
    std::function<void()> begins = nullptr, ends = nullptr;
    /// The folder for the recordings of all runs. If empty, only the recording of a failed run is kept, in the folder that
    /// the variable LISTSET_RECORD names, or else in TMPDIR or /tmp.
    std::string record = "";
};

/// The result of a test. A verdict is true if each run was completed, some order explains each run, and enough calls
/// overlapped a change of their key (`at_least`). `<<` prints a verdict.
struct verdict {
    bool ok = true;
    /// Whether the test was skipped because LISTSET is `skip`, so that nothing was judged.
    bool is_skipped = false;
    uint64_t calls = 0;
    /// The number of calls that overlapped a change of their key, as counted by the judge.
    uint64_t overlapped = 0;
    /// The seed of the failed run.
    uint64_t seed = 0;
    /// The judge's output about the failed run, and the file with the run's recording.
    std::string said, file;
    /// The name of the judge, and whether the judge states that it is proved.
    std::string judge;
    /// The complete message about the test.
    std::string text;
    /// The part of the message about runs that were not performed because of the time limit `within`. Empty if all runs
    /// were performed.
    std::string fewer_runs;
    explicit operator bool() const { return ok; }
};

inline std::ostream &operator<<(std::ostream &to, const verdict &it) { return to << it.text; }

/// Thrown by `judge` if nothing is known about the set: an option is out of range, no set could be created, or no judge
/// was found.
struct no_verdict : std::runtime_error {
    using std::runtime_error::runtime_error;
};

namespace judging {

using clock = std::chrono::steady_clock;

// The sizes of a run: the number of threads, of new sets used one after another, of calls per thread and set, and of
// keys. The keys are the multiples of `times`. Threads wait for each other after every MEET calls or, if `meets_once`,
// only at the beginning.
struct shape {
    const char *name;
    unsigned threads, sets, calls, keys, times;
    bool meets_once = false;
};

struct range {
    const char *name;
    uint64_t least, most;
};

// LONGEST is a number of polls, PART and MEET are numbers of calls, PATIENCE, FURTHER_FOR and FURTHER_MOST are in seconds, ALERT in
// microseconds, and SOON in nanoseconds.
// The lines below are made of words.json by judge/make_words.
constexpr shape PRESETS[] = {{"few keys", 4, 1, 5000, 4, 1}, {"fresh sets", 4, 40, 10, 4, 1}, {"multiples of 64", 4, 1, 5000, 8, 64}, {"one key", 3, 1, 5000, 1, 1}, {"sets that grow", 4, 20, 125, 64, 1}, {"many keys", 4, 1, 2500, 1000, 1}, {"multiples of 1,000", 8, 1, 2500, 8, 1000}};
constexpr range RANGES[] = {{"threads", 1, 64}, {"threads times calls", 1, 1000000000}, {"keys", 1, 1048576}, {"pauses", 0, 100}, {"runs", 1, 1000000}, {"seconds", 1, 3600}, {"within", 1, 604800}, {"at_least", 0, 100}, {"the sum of shares", 1, 1000000}};
constexpr unsigned PART = 20000, LONGEST = 100, HOT = 4, ENOUGH = 5, HARDER = 2, PATIENCE = 10, MEET = 250, AWAKE = 300000, WITHIN = 60, STOPS = 128, AGAIN = 4, PATIENT = 40, MANY = 40, SOON = 4000, ALERT = 500, TRIES = 60, NEAR = 128, FURTHER = 4, FURTHER_FOR = 3, FURTHER_MOST = 10, CLEAR = 10, LONGER = 4, STOPS_PER = 5000;
constexpr const char *OK = "ok: %s calls, and %s of them overlapped a change of their key";
constexpr const char *FEW = "few calls overlapped, so ok means little: %s calls, and %s of them overlapped a change of their key";
constexpr const char *FEWER_RUNS = "; only %s of %s runs were made, because no run begins after %s s (option within)";
constexpr const char *TOO_FEW = "too few calls overlapped: %s of %s calls overlapped a change of their key, and at_least requires %s of 100. If the machine is busy, raise within. Otherwise use fewer keys or more threads";
constexpr const char *FAILED_RUN = "%s\n\nseed %s (%s), %s threads%s; recorded in %s%s; judge: %s";
constexpr const char *RANGE = "%s is %s, but must be %s to %s";
constexpr const char *TWICE = "the key function returns %s for %s and for %s, but must return a different key for each number";
constexpr const char *HUNG = "the set hung: no call began or ended for %s s";
constexpr const char *CRASHED = "the set crashed: %s";
constexpr const char *ENDED_SO = "the set ended its process with status %s";
constexpr const char *THREW = "a call of the set failed: %s";
constexpr const char *NOT_MADE = "the set could not be created: %s";
constexpr const char *NO_OPENING = "contains of an opening key had no known outcome in %s calls";
constexpr const char *UNDER_WAY = "%s\npending:%s\nbefore that: %s";
constexpr const char *EXPLAINED = "some order explains the calls";
constexpr const char *PASSED_BEFORE = "; passed before: %s";
constexpr const char *REFUSED_OF = "; longer runs followed the first refusal: %s of %s runs were refused";
constexpr const char *PENDING_CALL = "\n  thread %s: %s %s%s, begun at moment %s";
constexpr const char *IS_KEY = " (key %s of the recording)";
constexpr const char *KEY_IS = "; key %s above means key %s";
constexpr const char *IN_SET = ", in set number %s of those that the run created";
constexpr const char *MADE_HARDER = "; with changed sizes, because few calls overlapped";
constexpr const char *NO_FOLDER = "no file can be written in %s: set record to another folder";
constexpr const char *NO_RECORD = "the variable LISTSET_RECORD is %s, but no file can be written there: set it to another folder";
constexpr const char *NO_TEMPORARY = "no file can be written in %s, the folder for temporary files: set the variable TMPDIR (in Java the property java.io.tmpdir) to another folder";
constexpr const char *NO_MEMORY = "there is not enough memory for the calls of a run";
constexpr const char *NO_PROCESS = "no process could be started for a run: %s";
constexpr const char *NO_JUDGE = "no judge was found: %s cannot be run. Copy the file judge/listset.js of this judge's repository, and set LISTSET to its path (Node 18 runs it); or put the program listset in PATH. LISTSET=skip skips this test";
constexpr const char *NO_SCRIPT = "the variable LISTSET is %s, but no file is at %s: set LISTSET to the full path of listset.js";
constexpr const char *NO_NODE = "no judge was found: LISTSET is %s, which needs Node 18 or newer, but no node is in PATH";
constexpr const char *OLD_NODE = "node is %s, but %s needs Node 18 or newer";
constexpr const char *IS_FOLDER = "%s is a folder: set LISTSET to the program in it";
constexpr const char *NO_VERDICT = "%s printed no verdict, but: %s. Use a newer listset";
constexpr const char *AND_MORE = "\n  and %s more";
constexpr const char *ALONE = ", the calls that show it in %s";
constexpr const char *SKIPPED = "skipped: LISTSET is skip";
constexpr const char *NOT_IN_CI = "LISTSET is skip, but the variable CI is set: in CI no test is skipped";
constexpr const char *NUMBER = "the variable %s is %s, but must be a number from %s to %s";
// end of what is made

// Replaces each %s in a text.
template <class... With> std::string say(const char *text, const With &...with) {
    std::ostringstream said;
    said.imbue(std::locale::classic());
    auto put = [&](const auto &it) {
        const char *gap = std::strstr(text, "%s");
        said << std::string(text, gap) << it;
        text = gap + 2;
    };
    (put(with), ...);
    said << text;
    return said.str();
}

inline void check(const options &it) {
    const uint64_t threads = std::max(it.threads, 1u), calls = std::max(it.calls, 1u), shares = uint64_t(it.adds) + it.removes + it.finds;
    const uint64_t given[] = {threads, threads * calls, std::max(it.keys, 1u), it.pauses, it.runs, it.seconds, it.within, it.at_least, shares};
    for (size_t i = 0; i < std::size(RANGES); i++) {
        const auto &[name, least, most] = RANGES[i];
        if (given[i] < least || given[i] > most) throw no_verdict(say(RANGE, name, given[i], least, most));
    }
}

// Returns the number in an environment variable, or `other` if the variable is not set.
inline uint64_t number_of(const char *variable, uint64_t other, uint64_t least, uint64_t most) {
    const char *text = std::getenv(variable);
    if (!text || !*text) return other;
    char *end;
    const unsigned long long found = std::strtoull(text, &end, 10);
    if (*end || !std::isdigit(static_cast<unsigned char>(*text)) || found < least || found > most) throw no_verdict(say(NUMBER, variable, text, least, most));
    return found;
}

// Applies the environment variables. If LISTSET_SECONDS is set, runs are repeated for that many seconds, with seeds
// that count up from the current time. LISTSET_SEED is the first seed.
inline options by_environment(options how) {
    const unsigned seconds = unsigned(number_of("LISTSET_SECONDS", 0, 1, RANGES[6].most));
    if (seconds) how.within = seconds, how.runs = RANGES[4].most, how.seed = unsigned(std::time(nullptr));
    how.seed = unsigned(number_of("LISTSET_SEED", how.seed, 0, UINT32_MAX));
    return how;
}

inline bool is_few(uint64_t overlapped, uint64_t calls) { return overlapped * 100 < calls * ENOUGH; }

// ---- the three calls, and the names that sets use for them

enum class kind { add, remove, contains };
enum class reply : uint8_t { no, yes, unknown };

inline reply reply_of(bool it) { return it ? reply::yes : reply::no; }
template <class I> reply reply_of(const std::pair<I, bool> &it) { return reply_of(it.second); }
inline reply reply_of(const std::optional<bool> &it) { return it ? reply_of(*it) : reply::unknown; }  // (empty after a timeout)
#ifdef LISTSET_HPP  // (for a set of liblistset, if <listset.hpp> is included before this file; `full` counts as `no`)
inline reply reply_of(added it) { return reply_of(it == added::is_true); }
#endif

inline constexpr auto by_add = [](auto &set, auto &key) -> decltype(set.add(key)) { return set.add(key); };
inline constexpr auto by_insert = [](auto &set, auto &key) -> decltype(set.insert(key)) { return set.insert(key); };
inline constexpr auto by_remove = [](auto &set, auto &key) -> decltype(set.remove(key)) { return set.remove(key); };
inline constexpr auto by_erase = [](auto &set, auto &key) -> decltype(set.erase(key)) { return set.erase(key); };
inline constexpr auto by_contains = [](auto &set, auto &key) -> decltype(set.contains(key)) { return set.contains(key); };
inline constexpr auto by_count = [](auto &set, auto &key) -> decltype(set.count(key)) { return set.count(key); };

// Returns whether a set of type S has at least one of the methods `Calls` for a key of type K. `called` calls the first
// method among its arguments that the set has.
template <class S, class K, class... Calls> constexpr bool has(const Calls &...) { return (std::is_invocable_v<Calls, S &, const K &> || ...); }

template <class S, class K, class First, class... Others> reply called(S &set, const K &key, First first, Others... others) {
    if constexpr (std::is_invocable_v<First, S &, const K &>) return reply_of(first(set, key));
    else return called(set, key, others...);
}

// ---- a run and its recording

enum phase { GOING, OVER, FAILED, UNMADE };

// A recorded call. The calling thread writes the record when the call begins, and completes it when the call ends.
// After a call with an unknown reply, the thread continues under a new thread number.
struct slot {
    unsigned thread, key;
    kind call;
    reply answer;
    std::atomic<unsigned> begin, end;  // `begin` is 0 until the call begins, `end` until the call ends
};

// How much of a run is in the file: the length of the file, and the value of `tickets` at the last save. The file
// contains all calls that had begun by the last save.
struct saved {
    uint64_t length = 0;
    unsigned moment = 0;
};

// The memory of a run, with the calls that have not been saved in the file yet. Processes can share the memory.
struct area {
    const shape of;
    const uint64_t seed;
    const unsigned rows, parts, rounds;  // calls per thread and part (calls between two saves), parts per set, parts of all sets
    slot *slots = nullptr;               // the calls, thread by thread
    std::atomic<unsigned> tickets{0}, there{0}, done{0}, begun{0};
    saved saves[2];
    std::atomic<unsigned> save{0};  // index of the valid element of `saves`; one store replaces length and moment
    std::atomic<phase> at{GOING};
    std::atomic<bool> is_stopping{false}, is_busy{false}, is_end_known{true};
    std::atomic<unsigned> alert{0}, ended{0};  // for `partners`: the number plus 1 of a thread that polls, and how often a block has ended
    char why[240] = "";

    area(const shape &it, uint64_t of_seed)
        : of(it), seed(of_seed), rows(std::min(it.calls, PART / it.threads)), parts((it.calls - 1) / rows + 1), rounds(it.sets * parts) {}

    static std::shared_ptr<area> made(const shape &it, uint64_t of_seed) {
        const size_t count = area(it, of_seed).count(), size = sizeof(area) + count * sizeof(slot);
        void *place = mmap(nullptr, size, PROT_READ | PROT_WRITE, MAP_SHARED | MAP_ANONYMOUS, -1, 0);
        if (place == MAP_FAILED) throw no_verdict(NO_MEMORY);
        std::shared_ptr<area> found(new (place) area(it, of_seed), [size](area *old) { munmap(old, size); });
        found->slots = new (found.get() + 1) slot[count]();
        return found;
    }

    size_t count() const { return size_t(of.threads) * rows; }

    // Calls a function and stores the exception that it throws, if any. Only the run's first exception is kept.
    template <class F> void tries(phase as, F call) {
        try {
            call();
        } catch (const std::exception &thrown) {
            fail(as, thrown.what());
        } catch (...) {
            fail(as, "a thrown value that is no std::exception");
        }
    }

    void fail(phase as, const std::string &thrown) {
        if (is_stopping.exchange(true)) return;
        snprintf(why, sizeof why, "%s", say(as == FAILED ? THREW : NOT_MADE, thrown).c_str());
        at = as;
    }

    // Waits until `is_done` returns true: polls `awake` times, then sleeps between polls. Returns false if the run was
    // stopped.
    template <class Done> bool waits(Done is_done, unsigned awake = LONGEST) const {
        for (unsigned waited = 0; !is_done() && !is_stopping; waited++)
            if (waited >= awake) std::this_thread::sleep_for(std::chrono::microseconds(20));
        return !is_stopping;
    }

    // Waits until all threads have called `meet`, so that they continue at the same time. Polls without sleeping if
    // there is a processor for each thread, unless an earlier call of `meet` lasted too long.
    void meet() {
        const unsigned all = there++ / of.threads * of.threads + of.threads;
        const unsigned awake = of.threads <= std::thread::hardware_concurrency() && !is_busy ? AWAKE : LONGEST;
        unsigned looks = 0;
        waits([&] { return looks++, there >= all; }, awake);
        if (looks > awake + LONGEST) is_busy = true;
    }

    // Returns whether interrupted threads should sleep for longer. On a busy machine, a thread is seldom preempted
    // during a call, because it has often completed all its calls before the system preempts it.
    bool interrupts_longer() const { return is_busy || of.meets_once; }
};

constexpr const char *WORDS[] = {"add", "remove", "contains"};

// Returns the line of a call in a recording, with the key `key` and the end `end`.
inline std::string line_of(const slot &it, unsigned key, unsigned end) {
    std::string text = "call " + std::to_string(it.thread) + " " + WORDS[int(it.call)] + " " + std::to_string(key) + " " + std::to_string(it.begin) + " ";
    const bool is_open = end == 0 || it.answer == reply::unknown;
    return text + (is_open ? "- -\n" : std::to_string(end) + (it.answer == reply::yes ? " true\n" : " false\n"));
}

// Returns the lines of the calls that have not been saved, sorted by start, and the pending calls. Threads can begin
// and end calls while `lines_of` runs: a call that begins meanwhile is left out, and a call that ends meanwhile is
// pending.
inline std::pair<std::string, std::vector<const slot *>> lines_of(const area &from) {
    const unsigned now = from.tickets, since = from.saves[from.save].moment;
    std::map<unsigned, std::pair<const slot *, unsigned>> found;
    for (size_t i = 0; i < from.count(); i++) {
        const unsigned end = from.slots[i].end, begin = from.slots[i].begin;  // (a pending call's slot can have the end of an earlier call)
        if (begin > since && begin <= now) found[begin] = {&from.slots[i], end > now || end < begin ? 0 : end};
    }
    std::string lines;
    std::vector<const slot *> under_way;
    for (const auto &[begin, it] : found) {
        lines += line_of(*it.first, it.first->key * from.of.times, it.second);
        if (it.second == 0) under_way.push_back(it.first);
    }
    return {lines, under_way};
}

// Interrupts the current thread during some calls, with a timer that sends the signal SIGURG. The interrupted thread
// sleeps for a microsecond. On a busy machine, it sleeps repeatedly, at most PATIENT times, until other threads have
// made calls. If the signal arrives between two calls, it has no effect, and the timer is started again. Works on Linux
// only.
struct stops {
#ifdef __linux__
    // The variables of a thread that its signal handler reads and writes.
    struct state {
        const area *run = nullptr;
        std::atomic<bool> is_in_call{false}, is_missed{false};
    };
    static state &of_thread() {
        thread_local state it;
        return it;
    }

    state &its = of_thread();
    int timer = -1;
    std::mt19937 draw;

    static void stop(int) {
        state &its = of_thread();
        if (!its.is_in_call) {
            its.is_missed = true;
            return;
        }
        const int before = errno;
        const timespec some = {0, 1000};
        const unsigned seen = its.run->tickets;
        unsigned looks = its.run->interrupts_longer() ? PATIENT : 1;
        do nanosleep(&some, nullptr);
        while (--looks > 0 && its.run->tickets - seen < MANY);
        errno = before;
    }

    // Starts the timer before about STOPS of `calls` calls. After a signal that arrived between two calls, starts the
    // timer before one call in AGAIN if that is more. Must be called before each of the `calls` calls.
    void before_call(uint64_t calls) {
        const uint64_t starts = its.is_missed ? std::max(calls / AGAIN, uint64_t(STOPS)) : STOPS;
        if (timer < 0 || draw() % calls >= starts) return;
        its.is_missed = false;
        itimerspec in = {};
        in.it_value.tv_nsec = long(1 + draw() % SOON);
        syscall(SYS_timer_settime, timer, 0, &in, nullptr);
    }

    // Makes a call to the set. A signal interrupts the thread only during `in_call`.
    template <class Call> reply in_call(Call call) {
        its.is_in_call.store(true, std::memory_order_relaxed);
        std::atomic_signal_fence(std::memory_order_seq_cst);
        const reply given = call();
        std::atomic_signal_fence(std::memory_order_seq_cst);
        its.is_in_call.store(false, std::memory_order_relaxed);
        return given;
    }

    stops(bool is_asked, const area &run, uint64_t seed) : draw(uint32_t(seed)) {
        its.run = &run;
        struct sigaction rests = {};
        rests.sa_handler = stop;
        rests.sa_flags = SA_RESTART;
        sigevent event = {};
        event.sigev_notify = SIGEV_THREAD_ID;
        event.sigev_signo = SIGURG;
        const auto thread = pid_t(syscall(SYS_gettid));
#ifdef sigev_notify_thread_id
        event.sigev_notify_thread_id = thread;
#else
        event._sigev_un._tid = thread;
#endif
        if (!is_asked || sigaction(SIGURG, &rests, nullptr) != 0) return;
        if (syscall(SYS_timer_create, CLOCK_MONOTONIC, &event, &timer) != 0) timer = -1;
    }
    ~stops() {
        its.is_in_call = false;  // (a call could have thrown)
        if (timer >= 0) syscall(SYS_timer_delete, timer);
        its.run = nullptr;
    }
#else
    stops(bool, const area &, uint64_t) {}
    void before_call(uint64_t) {}
    template <class Call> reply in_call(Call call) { return call(); }
#endif
};

// Lets two threads begin calls at the same time, to catch races that last only nanoseconds. On a busy machine, two
// threads seldom run at the same time. Therefore a thread polls for a partner before a call, and both threads continue
// when the partner polls too. Half of the calls then use two neighboring keys. The two keys change after every MEET
// calls. Only runs with an odd seed have partners, and only if `pauses` is not 0.
struct partners {
    area &run;
    const unsigned thread;
    const bool is_on;
    std::mt19937 draw, common;  // all threads draw the same numbers from `common`
    unsigned tries = TRIES, blocks = 0, first_key = 0, near = 0;

    partners(bool is_asked, area &of, unsigned number)
        : run(of), thread(number), is_on(is_asked && of.seed % 2 == 1 && !of.of.meets_once && of.of.threads > 1 && std::thread::hardware_concurrency() > 1),
          draw(uint32_t(~(of.seed * 64 + number))), common(uint32_t(of.seed)) {}

    void begin_block() { first_key = unsigned(common() % run.of.keys); }

    void end_block() {
        blocks++;
        run.ended++;
    }

    // Returns whether all other threads have completed the current block of calls.
    bool is_alone() const { return run.ended >= (blocks + 1) * run.of.threads - 1; }

    unsigned key_or(unsigned other) { return is_on && draw() % 2 ? (first_key + unsigned(draw() % 2)) % run.of.keys : other; }

    // Polls for at most ALERT microseconds, and returns whether a second thread polled at the same time. Never sleeps,
    // because a sleeping thread would wake up too late.
    bool polls() {
        unsigned mine = thread + 1, other = run.alert;
        if (other != 0) return run.alert.compare_exchange_strong(other, 0);
        if (!run.alert.compare_exchange_strong(other, mine)) return false;
        for (const auto until = clock::now() + std::chrono::microseconds(ALERT); clock::now() < until;)
            for (unsigned looks = 0; looks < LONGEST; looks++)
                if (run.alert != mine) return true;
        return !run.alert.compare_exchange_strong(mine, 0);
    }

    // Waits for a partner. A thread stops waiting for partners after TRIES waits without one. Returns whether two
    // threads can now begin their calls.
    bool meet() {
        near = is_on ? unsigned(draw() % NEAR) : 0;
        while (is_on && tries > 0 && !is_alone() && !run.is_stopping) {
            if (polls()) return true;
            tries--;
            std::this_thread::sleep_for(std::chrono::microseconds(20));
        }
        return false;
    }

    // Delays a call by up to some hundred nanoseconds. Without the delay, the same one of two partners would always
    // begin first.
    void delay() const {
        for (volatile unsigned left = near; left > 0; left = left - 1) {}
    }
};

// Creates the sets of a run, and makes the calls of all threads to them.
template <class Make, class K> struct maker {
    using pointer = std::invoke_result_t<Make &>;
    using set_type = typename std::pointer_traits<pointer>::element_type;
    static_assert(has<set_type, K>(by_add, by_insert), "the set has neither `add` nor `insert` of such a key");
    static_assert(has<set_type, K>(by_contains, by_count), "the set has neither `contains` nor `count` of such a key");
    static constexpr bool removes = has<set_type, K>(by_remove, by_erase);
    const options how;
    const std::vector<K> keys;
    Make make;
    std::ofstream file;
    std::atomic<set_type *> set{nullptr};

    maker(const options &it, std::vector<K> of, Make by, const std::string &path) : how(it), keys(std::move(of)), make(std::move(by)), file(path) {}

    static reply contains(set_type &its, const K &key) { return called(its, key, by_contains, by_count); }

    static reply call(kind word, set_type &its, const K &key) {
        if (word == kind::add) return called(its, key, by_add, by_insert);
        if constexpr (removes)
            if (word == kind::remove) return called(its, key, by_remove, by_erase);
        return contains(its, key);
    }

    kind drawn(std::mt19937 &draw) const {
        const unsigned removes_too = removes ? how.removes : 0, at = unsigned(draw()) % (how.adds + removes_too + how.finds);
        return at < how.adds ? kind::add : at < how.adds + removes_too ? kind::remove : kind::contains;
    }

    unsigned drawn_key(std::mt19937 &draw) const {
        const unsigned all = unsigned(keys.size()), below = all > 2 * HOT && draw() % 2 ? HOT : all;
        return unsigned(draw()) % below;
    }

    // Makes the calls of one thread to a set, up to the next save of the recording.
    void call_set(area &run, unsigned round, unsigned &number, std::mt19937 &draw, stops &own, partners &others) {
        set_type &its = *set;
        slot *at = run.slots + size_t(others.thread) * run.rows;
        const unsigned count = std::min(run.rows, run.of.calls - round % run.parts * run.rows);
        for (unsigned i = 0; i < count; i++, at++) {
            if (i % MEET == 0) others.begin_block();
            if (i == 0 || (i % MEET == 0 && !run.of.meets_once)) run.meet();
            const unsigned key = others.key_or(drawn_key(draw));
            at->thread = number;
            at->call = drawn(draw);
            at->key = round / run.parts * run.of.keys + key;
            const unsigned pause = draw() % 100 < how.pauses ? unsigned(draw()) % LONGEST : 0;
            const bool is_met = others.meet();
            for (unsigned left = is_met ? 0 : pause; left > 0; left--) run.tickets.load();
            if (!is_met) own.before_call(std::min(uint64_t(run.of.sets) * run.of.calls, uint64_t(STOPS_PER)));
            at->begin.store(++run.tickets, std::memory_order_release);
            if (is_met) others.delay();
            const reply given = own.in_call([&] { return call(at->call, its, keys[key]); });
            at->answer = given;
            at->end.store(++run.tickets, std::memory_order_release);
            if (given == reply::unknown) number += run.of.threads;
            if (i + 1 == count || (i + 1) % MEET == 0) others.end_block();
        }
    }

    void call_in_rounds(area &run, unsigned thread, bool is_stopped) {
        std::mt19937 draw(uint32_t(run.seed * 64 + thread));
        stops own(is_stopped, run, run.seed * 64 + thread);
        partners others(how.pauses > 0, run, thread);
        unsigned number = thread;
        if (how.begins) how.begins();
        for (unsigned round = 0; round < run.rounds && run.waits([&] { return run.begun > round; }); round++) {
            run.tries(FAILED, [&] { call_set(run, round, number, draw, own, others); });
            run.done++;
        }
        if (how.ends) how.ends();
    }

    // The maximum number of `contains` calls made to find out whether a key is in the set at the start or at the end. A
    // call is repeated while its outcome is unknown.
    static constexpr unsigned MOST_ASKED = 100;

    // Calls `contains` for each key, and calls it again if the outcome is unknown. Returns a line for each key found.
    std::string lines_of_keys(area &run, const char *word, unsigned round) {
        std::string lines;
        for (unsigned key = 0; key < run.of.keys; key++, run.tickets++) {
            reply found = reply::unknown;
            for (unsigned asked = 0; found == reply::unknown && asked < MOST_ASKED; asked++) found = contains(*set, keys[key]);
            if (found == reply::yes) lines += word + std::to_string((round / run.parts * run.of.keys + key) * run.of.times) + "\n";
            if (found == reply::unknown) run.is_end_known = false;
        }
        return lines;
    }

    void write(area &run, const std::string &lines) {
        if (!(file << lines << std::flush)) run.fail(UNMADE, "its recording cannot be written");
    }

    // Appends `lines` to the file and marks all calls so far as saved. No call is pending while `save` runs.
    void save(area &run, const std::string &lines) {
        const unsigned now = run.save;
        write(run, lines);
        run.saves[1 - now] = {run.saves[now].length + lines.size(), run.tickets};
        run.save = 1 - now;  // (if the process ends before this step, its last calls are only in memory)
    }

    // Creates the sets one after another. The threads call each set in parts, and after each part, `lead` writes the
    // part's calls to the file.
    void lead(area &run, pointer &own) {
        std::string left, lines = "listset-calls 1\n";
        for (unsigned round = 0; round < run.rounds; round++, lines = "") {
            if (round % run.parts == 0) {
                run.tries(UNMADE, [&] {
                    own = nullptr;
                    own = make();
                    set = &*own;
                });
                if (run.is_stopping) return;
                if (how.opens_with_keys) lines += lines_of_keys(run, "opening ", round);
                if (how.opens_with_keys && !run.is_end_known) return run.fail(UNMADE, say(NO_OPENING, MOST_ASKED));
                save(run, lines);
            }
            run.begun = round + 1;
            if (!run.waits([&] { return run.done == run.of.threads * (round + 1); })) return;
            if ((round + 1) % run.parts == 0) left += lines_of_keys(run, "key ", round);
            if (run.is_stopping) return;
            save(run, lines_of(run).first);
        }
        write(run, run.is_end_known ? left + "end\n" : "cut\n");  // (these lines are not marked as saved, because the run can still be cut short)
    }

    // Runs all threads. `is_own` is true if the process was started for the set. If it is false, threads are not
    // interrupted during calls.
    void all(area &run, bool is_own) {
        std::vector<std::thread> threads;
        for (unsigned i = 0; i < run.of.threads; i++)
            threads.emplace_back([&run, this, is_own, i] { run.tries(FAILED, [&] { call_in_rounds(run, i, is_own && how.pauses > 0); }); });
        if (how.begins) how.begins();
        {
            pointer own{};  // (the set must exist as long as threads can call it)
            run.tries(FAILED, [&] { lead(run, own); });
            for (auto &it : threads) it.join();
        }
        if (how.ends) how.ends();
        if (!run.is_stopping) run.at = OVER;
    }
};

// Waits until `is_done` returns true. Returns false at the time `until`, or if no call begins or ends for `seconds`
// seconds. The time between two polls counts as at most five milliseconds, so that a run that gets no processor time
// does not count as hung.
template <class Done> bool comes_to_end(const area &run, unsigned seconds, clock::time_point until, Done is_done) {
    unsigned seen = run.tickets;
    clock::duration waited{};
    for (auto last = clock::now(); !is_done(); std::this_thread::sleep_for(std::chrono::microseconds(300))) {
        const auto now = clock::now();
        waited = run.tickets == seen ? waited + std::min<clock::duration>(now - last, std::chrono::milliseconds(5)) : clock::duration();
        seen = run.tickets;
        last = now;
        if (waited > std::chrono::seconds(seconds) || now > until) return false;
    }
    return true;
}

// Returns whether the current thread is the only thread of its process. A second thread could hold a lock during a
// fork.
inline bool is_alone() {
    std::error_code none;
    const std::filesystem::directory_iterator threads("/proc/self/task", none);
    return std::distance(begin(threads), end(threads)) <= 1;
}

// Performs a run in a child process. Returns the reason if the run was cut short, otherwise an empty string.
template <class Maker> std::string made_in_child(Maker &by, area &run, clock::time_point until) {
    const pid_t process = fork();
    if (process < 0) throw no_verdict(say(NO_PROCESS, strerror(errno)));
    if (process == 0) {
#ifdef __linux__
        prctl(PR_SET_PDEATHSIG, SIGKILL);
#endif
        by.all(run, true);
        _exit(0);
    }
    int status = 0;
    if (!comes_to_end(run, by.how.seconds, until, [&] { return waitpid(process, &status, WNOHANG) == process; })) {
        kill(process, SIGKILL);
        waitpid(process, nullptr, 0);
        return say(HUNG, by.how.seconds);
    }
    if (WIFSIGNALED(status)) return say(CRASHED, strsignal(WTERMSIG(status)));
    const int ended = WEXITSTATUS(status);  // (not 0 if the set ended its process in its destructor, as a sanitizer does)
    return run.at < OVER || ended != 0 ? say(ENDED_SO, ended) : "";
}

// Performs a run in threads of the current process. Threads that hang keep running. Returns the reason if the run was
// cut short, otherwise an empty string.
template <class Maker> std::string made_here(std::shared_ptr<Maker> by, std::shared_ptr<area> run) {
    const auto is_over = std::make_shared<std::atomic<bool>>(false);
    std::thread leader([=] {
        by->all(*run, false);
        *is_over = true;
    });
    if (comes_to_end(*run, by->how.seconds, clock::time_point::max(), [&] { return is_over->load(); })) {
        leader.join();
        return "";
    }
    run->is_stopping = true;
    leader.detach();
    return say(HUNG, by->how.seconds);
}

// ---- the judge

// The exit status and the output of a command or of the library.
struct answer {
    int status;
    std::string said;
};

inline std::string stripped(const std::string &text) { return text.substr(0, text.find_last_not_of('\n') + 1); }

// Returns the line of `version` that states whether the judge is proved.
inline std::string proof_in(const std::string &version) {
    const size_t at = ("\n" + version).find("\nproof ");
    return at == std::string::npos ? "proof unknown" : version.substr(at, version.find('\n', at) - at);
}

// The judge of a test: its name, whether it states that it is proved, and how to call it.
struct judge_found {
    std::string name, proof;
    std::function<answer(const std::string &file)> asked_of;
    std::function<std::string(const std::string &file, const std::string &key)> only = nullptr;  // returns the recording of one key
};

#ifdef LISTSET_H
inline answer asked_of(const std::string &file) {
    std::string room(8192, '\0');
    uint8_t status;
    const std::unique_ptr<FILE, int (*)(FILE *)> from(fopen(file.c_str(), "r"), fclose);
    if (!from) throw no_verdict(say(NO_FOLDER, file));
    room.resize(listset_judge_from(fileno(from.get()), room.data(), room.size(), &status));
    return {status, stripped(room)};
}

inline judge_found find_judge() { return {"liblistset", proof_in(listset_version()), asked_of, nullptr}; }
#else
inline answer ran(const std::string &command) {
    FILE *made = popen(("exec " + command).c_str(), "r");
    if (!made) throw no_verdict(say(NO_PROCESS, strerror(errno)));
    std::string said;
    for (int it; (it = fgetc(made)) != EOF;) said += char(it);
    const int status = pclose(made);
    return {WIFEXITED(status) ? WEXITSTATUS(status) : 128, stripped(said)};
}

inline std::string quoted(const std::string &word) {
    std::string text = "'";
    for (char it : word) text += it == '\'' ? "'\\''" : std::string(1, it);
    return text + "'";
}

// Returns whether a command exists. Without the check, the shell would print a message of its own.
inline bool is_command(const std::string &name) { return !std::system(("command -v " + quoted(name) + " >/dev/null 2>&1").c_str()); }

inline void check_script(const std::string &name) {
    if (!std::filesystem::exists(name)) throw no_verdict(say(NO_SCRIPT, name, std::filesystem::absolute(name).string()));
    if (!is_command("node")) throw no_verdict(say(NO_NODE, name));
}

// Throws if node is too old.
inline void check_node(const std::string &name) {
    const answer node = ran("node --version 2>/dev/null");
    unsigned major;
    if (sscanf(node.said.c_str(), "v%u", &major) == 1 && major < 18) throw no_verdict(say(OLD_NODE, node.said, name));
}

inline judge_found find_judge() {
    const char *named = std::getenv("LISTSET");
    const std::string name = named && *named ? named : "listset";
    const bool is_script = std::filesystem::path(name).extension() == ".js";
    if (std::filesystem::is_directory(name)) throw no_verdict(say(IS_FOLDER, name));
    if (is_script) check_script(name);
    else if (!is_command(name)) throw no_verdict(say(NO_JUDGE, name));
    const std::string command = (is_script ? "node " : "") + quoted(name);
    const answer version = ran(command + " --version --long" + (is_script ? " 2>/dev/null" : ""));  // (a program's stderr is not captured: ./listset first builds the judge and prints its progress there)
    if (version.status == 127) throw no_verdict(say(NO_JUDGE, name));
    if (is_script && version.status != 0) check_node(name);
    return {name, proof_in(version.said), [command](const std::string &file) {
                const std::string asked = command + " judge " + quoted(file);
                const answer given = ran(asked + " 2>/dev/null");
                return given.said.empty() ? ran(asked + " 2>&1") : given;
            },
            [command](const std::string &file, const std::string &key) {
                const answer given = ran(command + " judge --only " + key + " " + quoted(file) + " 2>/dev/null");
                return given.status == 0 ? given.said + "\n" : "";
            }};
}
#endif

// Judges a recording. The first value of the result is the judge's output if no order explains the calls, otherwise an
// empty string. The second is the number of calls that overlapped a change of their key.
inline std::pair<std::string, uint64_t> judged(const judge_found &by, const std::string &file) {
    const auto [status, said] = by.asked_of(file);
    const std::string first = said.substr(0, said.find('\n'));
    unsigned long long overlapped;
    if (status == 1 && first == "not linearizable") return {said, 0};
    if (status == 0 && sscanf(said.c_str(), "ok %*u calls\n%llu of them", &overlapped) == 1) return {"", overlapped};
    throw no_verdict(say(NO_VERDICT, by.name, first.empty() ? "nothing" : first));
}

// Returns the key that a refusal names, as a number.
inline std::string key_in(const std::string &refused) {
    std::string key;
    if (const size_t at = refused.find("of key "); at != std::string::npos) std::istringstream(refused.substr(at + 7)) >> key;
    return key;
}

// Returns the number of contradictions in a refusal, or 0 if the refusal contains no number.
inline uint64_t contradictions_in(const std::string &refused) {
    std::istringstream words(refused);
    for (std::string before, last, word; std::getline(words, word, ' '); before = last, last = word) {
        if (last == "of" && word == "its") return std::strtoull(before.c_str(), nullptr, 10);
        if (word.rfind("contradiction", 0) == 0 && std::isdigit(static_cast<unsigned char>(last[0]))) return std::strtoull(last.c_str(), nullptr, 10);
    }
    return 0;
}

// ---- a test: a sequence of runs

// The file with the recording of a run. The file grows during the run, and is deleted at the end unless it is kept.
struct recording {
    std::string path;
    bool is_kept;

    recording(const options &how, uint64_t seed) : is_kept(!how.record.empty()) {
        static std::atomic<unsigned> files{0};
        std::error_code none;
        const char *named = std::getenv("LISTSET_RECORD"), *temporary = std::getenv("TMPDIR");
        const std::string folder = is_kept ? how.record : named && *named ? named : temporary && *temporary ? temporary : "/tmp";
        const std::string name = "seed-" + std::to_string(seed), others = std::to_string(getpid()) + "-" + std::to_string(++files);
        std::filesystem::create_directories(folder, none);
        path = folder + (is_kept ? "/" + name : "/listset-" + name + "-" + others) + ".calls";
        if (!std::ofstream(path)) throw no_verdict(say(is_kept ? NO_FOLDER : named && *named ? NO_RECORD : NO_TEMPORARY, folder));
    }
    recording(const recording &) = delete;
    ~recording() {
        if (!is_kept) std::remove(path.c_str());
    }
};

// Completes the recording of a run that was cut short. Returns the pending calls.
inline std::vector<const slot *> cut(const area &run, const std::string &path, const std::string &trouble) {
    if (run.tickets == 0) throw no_verdict(say(NOT_MADE, trouble));
    const auto [lines, under_way] = lines_of(run);
    std::filesystem::resize_file(path, run.saves[run.save].length);
    std::ofstream(path, std::ios::app) << lines << "cut\n";
    return under_way;
}

struct outcome {
    uint64_t seed = 0, calls = 0, overlapped = 0;
    shape of = {};
    std::string said = "", key = "";  // for a failed run: the judge's output, and the key that it names
    bool is_cut_short = false;
    std::shared_ptr<recording> text = nullptr;
};

inline bool is_set(const char *variable) { return std::getenv(variable) && *std::getenv(variable); }

// Returns the part of the message about runs that were not performed because time ran out. Returns an empty string if
// all runs were performed, or if LISTSET_SECONDS is set (the number of runs is then not fixed).
inline std::string fewer_runs(const options &how, uint64_t made) {
    return made == how.runs || is_set("LISTSET_SECONDS") ? "" : say(FEWER_RUNS, made, how.runs, how.within);
}

// Returns whether a test repeats a run: its seed is from LISTSET_SEED, or the option `seed` is not 1.
inline bool is_replay(const options &how) {
    return is_set("LISTSET_SEED") || (how.seed != options().seed && !is_set("LISTSET_SECONDS"));
}

struct number {
    unsigned operator()(unsigned it) const { return it; }
};

template <class S> struct made {
    std::unique_ptr<S> operator()() const { return std::make_unique<S>(); }
};

inline constexpr auto put_to = [](std::ostream &to, auto &key) -> decltype(to << key) { return to << key; };

template <class K> std::string shown(const K &key) {
    std::ostringstream to;
    if constexpr (has<std::ostream, K>(put_to)) to << key;
    return to.str();
}

template <class Make, class Key> struct tester {
    using K = std::decay_t<std::invoke_result_t<const Key &, unsigned>>;
    const options &how;
    const judge_found by;
    const Make &make;
    const Key &key;

    // Returns the preset that belongs to `seed`, modified by the options.
    shape shape_of(uint64_t seed) const {
        shape it = PRESETS[(seed + std::size(PRESETS) - 1) % std::size(PRESETS)];
        if (how.threads) it.threads = how.threads;
        if (how.keys || !std::is_same_v<Key, number>) it.times = 1;
        if (how.keys) it.keys = how.keys;
        if (how.calls || how.opens_with_keys) {
            it.calls = how.calls ? how.calls : it.sets * it.calls;
            it.sets = 1;
        }
        return it;
    }

    // Returns the part of the message that names the presets of the earlier runs, which all passed.
    std::string passed_before(uint64_t seed) const {
        std::string names;
        for (uint64_t it = how.seed; it < seed && it < how.seed + std::size(PRESETS); it++) names += (names.empty() ? "" : ", ") + std::string(shape_of(it).name);
        return names.empty() ? "" : say(PASSED_BEFORE, names);
    }

    // Returns the sizes of a run with more overlapping calls: more threads (possibly more than processors), fewer keys,
    // and twice as many calls in total. Does not change numbers that the options set. The threads wait for each other
    // only at the beginning, because on a busy machine a waiting thread is not interrupted during a call.
    shape harder(shape it) const {
        const unsigned before = it.threads;
        if (!how.threads) it.threads = std::min(std::max(2 * it.threads, std::thread::hardware_concurrency() + 2), 64u);
        if (!how.calls) it.calls = 2 * it.calls * before / it.threads + 1;
        if (!how.keys) it.keys = std::max(it.keys / 2, 1u);
        it.meets_once = true;
        return it;
    }

    std::vector<K> keys_of(const shape &it) const {
        std::vector<K> keys;
        for (unsigned i = 0; i < it.keys; i++) keys.push_back(key(i * it.times));
        if constexpr (!std::is_same_v<Key, number>) {
            std::map<K, unsigned> found;
            for (unsigned i = 0; i < it.keys; i++)
                if (auto [old, is_new] = found.emplace(keys[i], i); !is_new) throw no_verdict(say(TWICE, shown(keys[i]), old->second, i));
        }
        return keys;
    }

    // Describes the key whose number in the recording is `number` and, if the run has several sets, the key's set.
    // Returns an empty string if the key is the number and the run has a single set.
    static std::string key_line(const std::string &number, const shape &it, const std::vector<K> &keys) {
        if (number.empty() || (it.sets == 1 && std::is_same_v<Key, listset::judging::number>)) return "";
        const unsigned long at = std::stoul(number) / it.times;
        return say(KEY_IS, number, shown(keys[at % it.keys])) + (it.sets > 1 ? say(IN_SET, at / it.keys + 1) : "");
    }

    // Returns a line for each pending call, at most MOST_SHOWN.
    static std::string pending(const std::vector<const slot *> &under_way, const shape &it, const std::vector<K> &keys) {
        constexpr size_t MOST_SHOWN = 16;
        std::string lines;
        for (const slot *one : under_way) {
            const std::string name = shown(keys[one->key % it.keys]), number = std::to_string(one->key * it.times), set = it.sets > 1 ? say(IN_SET, one->key / it.keys + 1) : "";
            lines += say(PENDING_CALL, one->thread, WORDS[int(one->call)], name, (name == number ? "" : say(IS_KEY, number)) + set, one->begin.load());
            if (one == under_way[std::min(under_way.size(), MOST_SHOWN) - 1]) break;
        }
        if (under_way.size() > MOST_SHOWN) lines += say(AND_MORE, under_way.size() - MOST_SHOWN);
        return lines.empty() ? " no call" : lines;
    }

    // Returns the part of the message about a run whose sizes were changed because few calls overlapped. Returns an
    // empty string if the run has the sizes of its preset.
    std::string made_harder(uint64_t seed, const shape &it) const {
        const shape first = shape_of(seed);
        return it.threads == first.threads && it.calls == first.calls && it.keys == first.keys ? "" : MADE_HARDER;
    }

    bool has_own_process() const { return how.own_process && is_alone(); }

    // Performs a run and judges its recording. If the set has its own process, cuts the run short at the time `until`.
    outcome judged_run(uint64_t seed, const shape &it, clock::time_point until = clock::time_point::max()) const {
        const auto run = area::made(it, seed);
        const auto text = std::make_shared<recording>(how, seed);
        const auto by_maker = std::make_shared<maker<Make, K>>(how, keys_of(it), make, text->path);
        std::string trouble = has_own_process() ? made_in_child(*by_maker, *run, until) : made_here(by_maker, run);
        if (run->at == UNMADE) throw no_verdict(run->why);
        if (run->at == FAILED) trouble = run->why;
        const std::string under_way = trouble.empty() ? "" : pending(cut(*run, text->path, trouble), it, by_maker->keys);
        const auto [refused, overlapped] = judged(by, text->path);
        outcome found{seed, uint64_t(it.threads) * it.sets * it.calls, overlapped, it};
        if (trouble.empty() && refused.empty()) return found;
        found.said = trouble.empty() ? refused : say(UNDER_WAY, trouble, under_way, refused.empty() ? EXPLAINED : refused);
        found.key = key_in(refused), found.is_cut_short = !trouble.empty(), found.text = text;
        return found;
    }

    // Returns the sizes of a run with LONGER times as many calls. A run of several sets gets more sets.
    static shape longer(shape it) {
        (it.sets > 1 ? it.sets : it.calls) *= LONGER;
        return it;
    }

    // Performs and judges a run with the sizes `it`. Returns no value if the run is cut short or cannot be judged.
    std::optional<outcome> further_run(uint64_t seed, const shape &it, clock::time_point until) const {
        try {
            outcome found = judged_run(seed, it, until);
            return found.is_cut_short ? std::nullopt : std::optional(found);
        } catch (const std::exception &) {
            return std::nullopt;
        }
    }

    // Performs longer runs with the preset of a refused run and later seeds, until a run cannot be completed. They
    // begin and end within FURTHER_FOR seconds, or within FURTHER_MOST seconds while the best refusal reports fewer
    // than CLEAR contradictions. Both times are shorter if the test's own time limits are short. Returns the run whose
    // refusal reports the most contradictions, and the part of the message that counts the refused runs.
    std::pair<outcome, std::string> clearest(const outcome &first, clock::time_point until) const {
        if (is_replay(how) || !has_own_process()) return {first, ""};
        outcome best = first;
        unsigned refused = 1, runs = 1;
        const auto begun = clock::now();
        const auto least = std::chrono::milliseconds(100) * std::min({10 * FURTHER_FOR, how.seconds, how.within});
        while (runs <= FURTHER) {
            const bool is_clear = contradictions_in(best.said) >= CLEAR;
            const auto end = std::min(until, begun + (is_clear ? least : least * FURTHER_MOST / FURTHER_FOR));
            if (clock::now() >= end) break;
            const auto next = further_run(first.seed + runs * std::size(PRESETS), longer(first.of), end);
            if (!next) break;
            runs++;
            if (!next->said.empty()) refused++;
            if (contradictions_in(next->said) > contradictions_in(best.said)) best = *next;
        }
        return {best, runs > 1 ? say(REFUSED_OF, refused, runs) : ""};
    }

    // Writes a small file beside the recording, with calls on one key that no order explains. Returns the part of the
    // message that names the file.
    std::string alone(const std::string &path, const std::string &number) const {
        const std::string text = number.empty() || !by.only ? "" : by.only(path, number), file = path.substr(0, path.size() - 6) + "-key-" + number + ".calls";
        return !text.empty() && std::ofstream(file) << text << std::flush ? say(ALONE, file) : "";
    }

    verdict all() const {
        verdict all;
        all.judge = by.name + ", " + by.proof;
        const auto until = clock::now() + std::chrono::seconds(how.within), patience = clock::now() + std::chrono::seconds(PATIENCE);
        outcome found;
        auto run = [&](uint64_t seed, const shape &it) {
            found = judged_run(seed, it);
            all.calls += found.calls;
            all.overlapped += found.overlapped;
            return found.said.empty();
        };
        uint64_t seed = how.seed, runs = 0;
        for (; found.said.empty() && runs < how.runs && (runs == 0 || clock::now() < until); seed++, runs++) {
            shape it = shape_of(seed);
            for (unsigned tries = 0; run(seed, it) && tries < HARDER && is_few(found.overlapped, found.calls) && clock::now() < patience; tries++) it = harder(it);
        }
        const auto end = std::min(until, clock::now() + std::chrono::seconds(PATIENCE));
        for (; found.said.empty() && is_few(all.overlapped, all.calls) && clock::now() < end; seed++) run(seed, harder(harder(shape_of(seed))));
        return found.said.empty() ? passed(all, runs) : failed(all, found, until);
    }

    // Returns the verdict after the failed run `first`. Makes longer runs until the time `until`, for a clearer refusal.
    verdict failed(verdict all, const outcome &first, clock::time_point until) const {
        const auto [found, refused_of] = first.is_cut_short ? std::pair(first, std::string()) : clearest(first, until);
        found.text->is_kept = true;
        const std::string notes = made_harder(first.seed, first.of) + refused_of + passed_before(first.seed) + key_line(found.key, found.of, keys_of(found.of));
        all.ok = false, all.seed = found.seed, all.said = found.said, all.file = found.text->path;
        all.text = say(FAILED_RUN, found.said, found.seed, found.of.name, found.of.threads, notes, all.file, alone(all.file, found.key), all.judge);
        return all;
    }

    // Returns the verdict if none of the `runs` runs has failed: false if too few calls overlapped.
    verdict passed(verdict all, uint64_t runs) const {
        const bool few = is_few(all.overlapped, all.calls);
        all.fewer_runs = fewer_runs(how, runs);
        all.text = say(few ? FEW : OK, all.calls, all.overlapped) + all.fewer_runs + "; judge: " + all.judge;
        if (few) fprintf(stderr, "listset: %s\n", all.text.c_str());  // (the test framework can hide a passed test's output)
        all.ok = all.overlapped * 100 >= all.calls * how.at_least;
        if (!all.ok) all.text = all.said = say(TOO_FEW, all.overlapped, all.calls, how.at_least);
        return all;
    }
};

// The type T, which the compiler looks up only when S is known, because GoogleTest can be included after this file.
template <class S, class T> struct later {
    using type = T;
};

template <class T, class = void> constexpr bool can_skip = false;
template <class T> constexpr bool can_skip<T, std::void_t<decltype(T::kSkip)>> = true;

// Returns the verdict if LISTSET is `skip`. Skips the test if GoogleTest is included.
template <class S> verdict skipped() {
    using result = typename later<S, testing::TestPartResult>::type;
    using helper = typename later<S, testing::internal::AssertHelper>::type;
    using message = typename later<S, testing::Message>::type;
    if (const char *ci = std::getenv("CI"); ci && *ci) throw no_verdict(NOT_IN_CI);
    verdict none;
    none.is_skipped = true, none.text = SKIPPED;
    if constexpr (can_skip<result>) helper(result::kSkip, __FILE__, __LINE__, "") = message() << SKIPPED;  // (as GTEST_SKIP does)
    else fprintf(stderr, "listset: %s\n", SKIPPED);
    return none;
}

}  // namespace judging

/// Judges the sets that `make` creates. `make` returns a pointer that owns a set. `key` converts a number to a key, and
/// must return a different key for each number.
template <class S, class Make = judging::made<S>, class Key = judging::number> verdict judge(const options &how = {}, Make make = {}, Key key = {}) {
    judging::check(how);
    if (const char *named = std::getenv("LISTSET"); named && named == std::string("skip")) return judging::skipped<S>();
    const options settled = judging::by_environment(how);
    return judging::tester<Make, Key>{settled, judging::find_judge(), make, key}.all();
}

}  // inline namespace
}  // namespace listset
