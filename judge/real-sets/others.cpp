// Judges the sets of TBB, liburcu and Concurrency Kit (Debian's packages libtbb-dev, liburcu-dev, libck-dev). The first
// argument is the number of tests for each set:
//     g++ -O2 -std=c++17 -pthread others.cpp -ltbb -lurcu-cds -lurcu -lck -o others && ./others 20
#include "tests.hpp"
#include <mutex>
#include <tbb/concurrent_hash_map.h>
#include <urcu.h>
#include <urcu/rculfhash.h>
extern "C" {
#include <ck_hs.h>
}

struct Tbb {
    tbb::concurrent_hash_map<unsigned, bool> keys;
    bool add(unsigned key) { return keys.insert({key, true}); }
    bool remove(unsigned key) { return keys.erase(key); }
    bool contains(unsigned key) { return keys.count(key) > 0; }
};

constexpr unsigned long hash_of(unsigned long key) { return key * 0x9E3779B97F4A7C15; }

// A hash set from Concurrency Kit. Writers hold a lock; readers do not.
struct Ck {
    ck_hs_t keys;
    std::mutex writers;
    static void *allocate(size_t size) { return malloc(size); }
    static void *grow(void *old, size_t, size_t size, bool) { return realloc(old, size); }
    static void leave(void *, size_t, bool) {}  // (frees nothing: a reader can still use the memory)
    static unsigned long hash(const void *key, unsigned long) { return hash_of(reinterpret_cast<uintptr_t>(key)); }
    static void *of(unsigned key) { return reinterpret_cast<void *>((uintptr_t(key) + 1) * 4); }
    Ck() {
        static ck_malloc by = {allocate, grow, leave};
        ck_hs_init(&keys, CK_HS_MODE_SPMC | CK_HS_MODE_DIRECT, hash, nullptr, &by, 8, 1);
    }
    bool add(unsigned key) { std::lock_guard held(writers); return ck_hs_put(&keys, hash(of(key), 0), of(key)); }
    bool remove(unsigned key) { std::lock_guard held(writers); return ck_hs_remove(&keys, hash(of(key), 0), of(key)) != nullptr; }
    bool contains(unsigned key) { return ck_hs_get(&keys, hash(of(key), 0), of(key)) != nullptr; }
};

// Registers a thread with liburcu, as liburcu requires before the thread's first call.
struct registered {
    registered() { rcu_register_thread(); }
    ~registered() { rcu_unregister_thread(); }
};
void enter() { thread_local registered it; }

struct Urcu {
    struct node {
        cds_lfht_node in;
        unsigned key;
    };
    cds_lfht *keys = cds_lfht_new(16, 16, 0, CDS_LFHT_AUTO_RESIZE, nullptr);
    static node *of(cds_lfht_node *it) { return reinterpret_cast<node *>(it); }
    static int is_key(cds_lfht_node *it, const void *key) { return of(it)->key == *static_cast<const unsigned *>(key); }
    template <class Call> bool reading(unsigned key, Call call) {
        cds_lfht_iter found;
        rcu_read_lock();
        cds_lfht_lookup(keys, hash_of(key), is_key, &key, &found);
        const bool answer = call(cds_lfht_iter_get_node(&found));
        rcu_read_unlock();
        return answer;
    }
    bool add(unsigned key) {
        node *mine = new node{{}, key};  // (removed nodes are never deleted)
        return reading(key, [&](cds_lfht_node *) { return cds_lfht_add_unique(keys, hash_of(key), is_key, &key, &mine->in) == &mine->in; });
    }
    bool remove(unsigned key) { return reading(key, [&](cds_lfht_node *it) { return it && cds_lfht_del(keys, it) == 0; }); }
    bool contains(unsigned key) { return reading(key, [](cds_lfht_node *it) { return it != nullptr; }); }
};

int main(int, char **words) {
    judge<Tbb>("tbb::concurrent_hash_map", words);
    judge<Ck>("ck_hs", words);
    judge<Urcu>("cds_lfht", words, enter);
}
