// Judges `shared` sets with eight seats (one for each thread), of the five lists and of a wrong set, in the way
// described in docs/YOUR-SET.md.
#include "listset.hpp"

#include "listset_judge.hpp"

#include <iostream>

template <listset::list KIND> static bool is_right() {
  listset::options how;
  how.runs = 7;  // one run for each preset of threads, calls and keys
  listset::verdict verdict = listset::judge<listset::shared>(how, [] { return std::make_unique<listset::shared>(KIND, 8, 16384); });
  std::cout << verdict << "\n";
  std::string version(listset::version()), proof = version.substr(version.find("\nproof ") + 1);
  return verdict && verdict.overlapped > 0 && "liblistset, " + proof.substr(0, proof.find('\n')) == verdict.judge;
}

struct FindsAll : listset::shared {
  FindsAll() : shared(listset::list::lazy, 8, 16384) {}
  bool contains(uint32_t) { return true; }
};

static bool is_refused() {
  listset::verdict verdict = listset::judge<FindsAll>();
  std::cout << verdict << "\n";
  return !verdict && verdict.said.rfind("not linearizable\n", 0) == 0;
}

int main() {
  using listset::list;
  bool is_each = is_right<list::coarse>() & is_right<list::fine>() & is_right<list::optimistic>() & is_right<list::lazy>() &
                 is_right<list::lock_free>();
  return !(is_each & is_refused());
}
