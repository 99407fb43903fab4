// Judges the sets of libcds (Debian's package libcds-dev). The first argument is the number of
// tests for each set:
//     g++ -O2 -std=c++17 -pthread libcds.cpp -lcds -o libcds && ./libcds 20
#include "tests.hpp"
#include <cds/container/cuckoo_set.h>
#include <cds/container/ellen_bintree_set_hp.h>
#include <cds/container/feldman_hashset_hp.h>
#include <cds/container/lazy_list_hp.h>
#include <cds/container/michael_list_hp.h>
#include <cds/container/michael_set.h>
#include <cds/container/skip_list_map_hp.h>
#include <cds/container/skip_list_set_dhp.h>
#include <cds/container/skip_list_set_hp.h>
#include <cds/container/split_list_set.h>
#include <cds/container/striped_set/std_set.h>
#include <cds/container/striped_set.h>
#include <cds/gc/dhp.h>
#include <cds/gc/hp.h>
#include <cds/init.h>
#include <functional>
#include <set>

// Registers a thread with libcds, as libcds requires before the thread's first call.
struct attached {
    attached() { cds::threading::Manager::attachThread(); }
    ~attached() { cds::threading::Manager::detachThread(); }
};
void attach() { thread_local attached it; }

template <class Traits> struct by_less : Traits {
    using less = std::less<unsigned>;
};
struct itself {
    void operator()(unsigned &to, unsigned from) const { to = from; }
};
struct of_tree : by_less<cds::container::ellen_bintree::traits> {
    using key_extractor = itself;
};

struct of_map : cds::container::skip_list::traits {
    using less = std::less<unsigned>;
};
struct hashed : cds::container::michael_set::traits {
    using hash = std::hash<unsigned>;
};
struct split : cds::container::split_list::traits {
    using ordered_list = cds::container::michael_list_tag;
    using hash = std::hash<unsigned>;
    struct ordered_list_traits : by_less<cds::container::michael_list::traits> { };
};

struct first_hash {
    size_t operator()(unsigned key) const { return key * size_t{0x9E3779B97F4A7C15} >> 32; }
};
struct second_hash {
    size_t operator()(unsigned key) const { return key * size_t{0xC2B2AE3D27D4EB4F} >> 32; }
};
struct of_cuckoo : cds::container::cuckoo::traits {
    using hash = cds::opt::hash_tuple<first_hash, second_hash>;
    using equal_to = std::equal_to<unsigned>;
};
// A hash function that returns the key itself.
struct own_hash {
    const unsigned &operator()(const unsigned &key) const { return key; }
};
struct of_feldman : cds::container::feldman_hashset::traits {
    using hash_accessor = own_hash;
};

// A hash table with lists as buckets.
template <class List> struct Hashed : cds::container::MichaelHashSet<cds::gc::HP, List, hashed> {
    Hashed() : cds::container::MichaelHashSet<cds::gc::HP, List, hashed>(64, 4) { }
};

int main(int, char **words) {
    using namespace cds::container;
    using gc = cds::gc::HP;
    cds::Initialize();
    gc pointers(128);
    cds::gc::DHP others(128);
    judge<MichaelList<gc, unsigned, by_less<michael_list::traits>>>("MichaelList", words, attach);
    judge<LazyList<gc, unsigned, by_less<lazy_list::traits>>>("LazyList", words, attach);
    judge<EllenBinTreeSet<gc, unsigned, unsigned, of_tree>>("EllenBinTreeSet", words, attach);
    judge<SkipListSet<gc, unsigned, by_less<skip_list::traits>>>("SkipListSet<HP>", words, attach);
    judge<SkipListSet<cds::gc::DHP, unsigned, by_less<skip_list::traits>>>("SkipListSet<DHP>", words, attach);
    judge<SkipListMap<gc, unsigned, bool, of_map>>("SkipListMap<HP>", words, attach);
    judge<Hashed<MichaelList<gc, unsigned, by_less<michael_list::traits>>>>("MichaelHashSet of MichaelList", words, attach);
    judge<Hashed<LazyList<gc, unsigned, by_less<lazy_list::traits>>>>("MichaelHashSet of LazyList", words, attach);
    judge<SplitListSet<gc, unsigned, split>>("SplitListSet", words, attach);
    judge<StripedSet<std::set<unsigned>, cds::opt::hash<std::hash<unsigned>>, cds::opt::less<std::less<unsigned>>>>("StripedSet", words, attach);
    judge<CuckooSet<unsigned, of_cuckoo>>("CuckooSet", words, attach);
    judge<FeldmanHashSet<gc, unsigned, of_feldman>>("FeldmanHashSet", words, attach);
}
