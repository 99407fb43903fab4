// Judges the set that the variable SET names, with the options in HOW, such as "threads=4 runs=2". Judges the set once,
// or TESTS times. Prints the result and its kind.
#include "../listset_judge.hpp"
#include <iostream>
#include <mutex>
#include <set>

template <class K> struct Right {
    std::set<K> keys;
    std::mutex lock;
    bool add(const K &key) { std::lock_guard held(lock); return keys.insert(key).second; }
    bool remove(const K &key) { std::lock_guard held(lock); return keys.erase(key) > 0; }
    bool contains(const K &key) { std::lock_guard held(lock); return keys.count(key) > 0; }
};
// A set with the method names of the standard library, but without `erase`.
struct AddsOnly {
    std::set<unsigned> keys;
    std::mutex lock;
    auto insert(unsigned key) { std::lock_guard held(lock); return keys.insert(key); }
    size_t count(unsigned key) { std::lock_guard held(lock); return keys.count(key); }
};

// Returns the error that the variable SET names. `E later` is the error E if the file `judged` exists, else `finds all`.
std::string error() {
    const std::string name = std::getenv("SET");
    const size_t later = name.rfind(" later");
    return later == std::string::npos ? name : std::ifstream("judged") ? name.substr(0, later) : "finds all";
}

// A correct set, except for the error that `error` names.
struct Set : Right<unsigned> {
    using right = Right<unsigned>;
    const std::string is = error();
    std::atomic<unsigned> calls{0};
    std::atomic<right *> parts[8192]{};

    Set() {
        if (is == "opens") keys = {1, 3};
        if (is == "not made") throw std::runtime_error("no room");
        if (is == "ends") std::thread([] { std::this_thread::sleep_for(std::chrono::microseconds(std::random_device()() % 40'000)), _exit(3); }).detach();
    }
    // Ends the process when the set is deleted, as a sanitizer does.
    ~Set() {
        if (is == "ends when deleted") _exit(3);
    }
    // Returns the set of a key: the whole set or, with "first use", a set for this key alone. The first call with the key
    // creates this set. The bug: two calls can both create it.
    right &part(unsigned key) {
        if (is != "first use") return *this;
        if (!parts[key]) parts[key] = new right;  // (a replaced set is never deleted)
        return *parts[key];
    }
    // Returns the key that the set uses instead of `key`. With "collides", this is the remainder modulo 64, so some different
    // keys are treated as one key.
    unsigned place(unsigned key) const { return is == "collides" ? key % 64 : key; }

    // Executes a call. With "not known" or "again", loses one reply in fifty: the outcome is then unknown, or the call
    // is repeated.
    template <class Call> std::optional<bool> called(Call call) {
        const bool reply = call();
        if ((is != "not known" && is != "again") || ++calls % 50 > 0) return reply;
        return is == "again" ? std::optional(call()) : std::nullopt;
    }
    // Hangs, crashes, exits, throws or naps during a later `remove`, while holding the lock. The variable SET selects
    // which.
    void stop() {
        std::lock_guard held(lock);
        if (++calls != (is == "crashes late" ? 10'000 : 30)) return;
        if (is == "throws") throw std::runtime_error("no memory");
        if (is == "naps") std::this_thread::sleep_for(std::chrono::milliseconds(1200));
        if (is == "exits") _exit(3);
        if (is == "crashes" || is == "crashes late") abort();
        while (is == "hangs") std::this_thread::sleep_for(std::chrono::hours(1));
    }
    auto add(unsigned key) {
        if (is == "check then act" && *contains(key)) return std::optional(false);
        if (is == "check then act") std::this_thread::yield(), right::add(key);
        return is == "check then act" ? std::optional(true) : called([&] { return part(key).right::add(place(key)); });
    }
    auto remove(unsigned key) {
        if (is != "not known" && is != "again" && is != "finds all late") stop();
        return called([&] { return part(key).right::remove(place(key)); });
    }
    std::optional<bool> contains(unsigned key) {
        if (is == "loses contains") return std::nullopt;
        return is == "finds all" || (is == "finds all late" && ++calls > 8000) || part(key).right::contains(place(key));
    }
};

listset::options how_of(std::istream &words) {
    listset::options how;
    unsigned own_process = 1, opens_with_keys = 0;
    std::map<std::string, unsigned *> numbers{
        {"threads", &how.threads}, {"calls", &how.calls}, {"keys", &how.keys}, {"pauses", &how.pauses}, {"runs", &how.runs},
        {"seed", &how.seed}, {"seconds", &how.seconds}, {"within", &how.within}, {"at_least", &how.at_least}, {"adds", &how.adds}, {"removes", &how.removes},
        {"finds", &how.finds}, {"own_process", &own_process}, {"opens_with_keys", &opens_with_keys}};
    for (std::string word; words >> word;) {
        auto name = word.substr(0, word.find('=')), given = word.substr(name.size() + 1);
        if (name == "record") how.record = given;
        else *numbers.at(name) = unsigned(std::stoul(given));
    }
    how.own_process = own_process, how.opens_with_keys = opens_with_keys;
    return how;
}

std::string text(unsigned number) { return "key " + std::to_string(number); }
std::string twice(unsigned number) { return "key " + std::to_string(number / 2); }

listset::verdict judged(const std::string &set, const listset::options &how) {
    using texts = listset::judging::made<Right<std::string>>;
    if (set == "adds only") return listset::judge<AddsOnly>(how);
    if (set == "texts") return listset::judge<Right<std::string>>(how, texts(), text);
    if (set == "twice") return listset::judge<Right<std::string>>(how, texts(), twice);
    return listset::judge<Set>(how);
}

void print() {
    std::istringstream words(std::getenv("HOW"));
    try {
        auto verdict = judged(std::getenv("SET"), how_of(words));
        bool is_refused = verdict.said.rfind("not linearizable", 0) == 0, is_few = verdict.file.empty();
        std::cout << "verdict: " << (verdict ? "ok" : is_refused ? "refused" : is_few ? "too few" : "cut short") << "\n" << verdict << "\n";
    } catch (const listset::no_verdict &why) {
        std::cout << "verdict: none\n" << why.what() << "\n";
    }
}

int main() {
    const char *tests = std::getenv("TESTS");
    for (int i = tests ? std::atoi(tests) : 1; i > 0; i--) print();
}
