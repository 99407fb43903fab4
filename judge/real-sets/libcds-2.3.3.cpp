// Reproduces the bug described in libcds-2.3.3.md without a judge. One thread inserts and erases key 0. The other
// thread erases key 0, gets the reply that the key is absent, and then finds the key, although no insert runs in
// between. Ends when this happens, or after 60 seconds:
//     g++ -O2 -std=c++17 -pthread libcds-2.3.3.cpp -lcds -o bug && ./bug
#include <atomic>
#include <cds/container/skip_list_set_hp.h>
#include <cds/gc/hp.h>
#include <cds/init.h>
#include <chrono>
#include <functional>
#include <iostream>
#include <thread>

struct by_less : cds::container::skip_list::traits {
    using less = std::less<unsigned>;
};
using Set = cds::container::SkipListSet<cds::gc::HP, unsigned, by_less>;

using Clock = std::chrono::steady_clock;

std::atomic<unsigned> inserts{0};  // an odd number while an insert runs
std::atomic<bool> is_over{false};

void insert_and_erase(Set &set) {
    cds::threading::Manager::attachThread();
    while (!is_over) {
        inserts++;
        set.insert(0);
        inserts++;
        set.erase(0);
    }
    cds::threading::Manager::detachThread();
}

int main() {
    cds::Initialize();
    cds::gc::HP pointers(128);
    cds::threading::Manager::attachThread();
    unsigned found = 0, seen = 0;
    {
        Set set;
        std::thread other(insert_and_erase, std::ref(set));
        for (const auto end = Clock::now() + std::chrono::seconds(60); found == 0 && Clock::now() < end;) {
            const unsigned before = inserts;
            if (before % 2 == 1 || set.erase(0)) continue;
            const bool is_there = set.contains(0);
            if (inserts != before) continue;
            seen++;
            found += is_there;
        }
        is_over = true;
        other.join();
    }
    std::cout << (found ? "key 0 was found" : "key 0 was not found") << " after an erase had returned false; tried " << seen << " times\n";
    cds::threading::Manager::detachThread();
    return found > 0;
}
