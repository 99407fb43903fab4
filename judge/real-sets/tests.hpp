// Tests a published set several times, and prints how many tests refused the set.
#include "../cpp/listset_judge.hpp"
#include <iostream>

// `words` are the program's arguments: the number of tests and, optionally, the name of the only set to judge. Prints a
// table row for the set, and the set's shortest refusal on standard error.
template <class S> void judge(const char *name, char **words, void (*begins)() = nullptr) {
    const unsigned tests = words[1] ? unsigned(std::stoul(words[1])) : 1;
    if (words[1] && words[2] && words[2] != std::string(name)) return;
    unsigned refused = 0;
    std::string shortest;
    for (unsigned i = 0; i < tests; i++) {
        listset::options how;
        how.begins = begins, how.seed = 1 + 1000 * i;
        const listset::verdict verdict = listset::judge<S>(how);
        if (verdict) continue;
        if (refused++ == 0 || verdict.said.size() < shortest.size()) shortest = verdict.said;
        std::remove(verdict.file.c_str());
    }
    std::cout << "| " << name << " | " << refused << " of " << tests << " |" << std::endl;
    if (refused) std::cerr << name << ":\n" << shortest << std::endl;
}
