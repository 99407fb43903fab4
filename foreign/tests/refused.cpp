// Closes a set while an allocation fails, in the library or for the vector of the keys. A second `close` must return
// the keys. Link with --wrap for malloc, realloc and free, so that only the library's calls are wrapped.
#include "listset.hpp"

#include <cstdio>
#include <cstdlib>
#include <new>

using listset::list;

static bool refuses_library, refuses_keys;
static size_t blocks;
static int wrong;

extern "C" {
void *__real_malloc(size_t);
void *__real_realloc(void *, size_t);
void __real_free(void *);

void *__wrap_malloc(size_t size) {
  void *block = refuses_library ? nullptr : __real_malloc(size);
  blocks += block != nullptr;
  return block;
}

void *__wrap_realloc(void *block, size_t size) { return refuses_library ? nullptr : __real_realloc(block, size); }

void __wrap_free(void *block) {
  blocks -= block != nullptr;
  __real_free(block);
}
}

void *operator new(size_t size) {
  void *block = refuses_keys ? nullptr : __real_malloc(size);
  if (block == nullptr) throw std::bad_alloc();
  return block;
}

void operator delete(void *block) noexcept { __real_free(block); }
void operator delete(void *block, size_t) noexcept { __real_free(block); }

static void expect(bool holds, const char *what) {
  if (!holds) std::printf("wrong: %s\n", what), wrong++;
}

// Returns the error of `close` if an allocation fails: the code of a fault, LISTSET_NO_MEMORY for std::bad_alloc, or
// LISTSET_OK if nothing was thrown.
template <typename Set> static uint8_t thrown(Set &set, bool &refuses) {
  refuses = true;
  uint8_t code = LISTSET_OK;
  try {
    set.close();
  } catch (const listset::fault &fault) {
    code = fault.code;
  } catch (const std::bad_alloc &) {
    code = LISTSET_NO_MEMORY;
  }
  refuses = false;
  return code;
}

// Returns the keys of a set after its `close` has failed twice.
template <typename Set> static std::vector<uint32_t> kept(Set set) {
  expect(set.add(7) == listset::added::is_true, "add");
  expect(thrown(set, refuses_library) == LISTSET_OUT_OF_MEMORY, "the library's memory is refused");
  expect(thrown(set, refuses_keys) == LISTSET_NO_MEMORY, "the memory for the keys is refused");
  try {
    return set.close();
  } catch (const listset::fault &) {
    return {};
  }
}

int main() {
  const std::vector<uint32_t> due{5, 7, 9};
  for (list kind : {list::coarse, list::fine, list::optimistic, list::lazy, list::lock_free}) {
    expect(kept(listset::open(kind, 2, 1, {5, 9})) == due, "the keys of a seat that is closed again");
    expect(kept<listset::shared>({kind, 3, 1, {5, 9}}) == due, "the keys of a shared set that is closed again");
    listset::shared(kind, 3, 1, {5, 9}).remove(5);
    expect(blocks == 0, "blocks kept");
  }
  return wrong != 0;
}
