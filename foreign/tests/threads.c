// Runs `replay`, `check` and `trace` on the texts in the given files, in eight threads at the same time. Each thread
// must get the same results as a single thread.
//
//     threads FILE ..
#include "listset.h"

#include <pthread.h>
#include <stdio.h>
#include <string.h>

enum { THREADS = 8, MOST = 256, ROUNDS = 3, LONGEST = 1 << 20 };

static listset_function *const FUNCTIONS[] = {listset_replay, listset_check, listset_trace};
enum { FUNCTION_COUNT = sizeof FUNCTIONS / sizeof *FUNCTIONS };

struct said {
  char *text;
  size_t length;
  uint8_t status;
};

static struct said texts[MOST], wanted[MOST][FUNCTION_COUNT];
static size_t count;

static struct said ask(size_t file, int function) {
  struct said made;
  made.text = listset_said(FUNCTIONS[function], texts[file].text, texts[file].length, &made.length, &made.status);
  return made;
}

static int is_same(struct said a, struct said b) {
  return a.text && b.text && a.status == b.status && a.length == b.length && memcmp(a.text, b.text, a.length) == 0;
}

static void *judge(void *first) {
  size_t wrong = 0;
  for (size_t at = 0; at < count * ROUNDS; at++) {
    size_t file = (at + (size_t)first) % count;
    for (int function = 0; function < FUNCTION_COUNT; function++) {
      struct said made = ask(file, function);
      wrong += !is_same(made, wanted[file][function]);
      free(made.text);
    }
  }
  return (void *)wrong;
}

static struct said text_of(const char *name) {
  struct said made = {malloc(LONGEST), 0, 0};
  FILE *file = fopen(name, "rb");
  if (file == NULL || made.text == NULL) exit(2);
  made.length = fread(made.text, 1, LONGEST, file);
  fclose(file);
  return made;
}

int main(int words, char **names) {
  size_t wrong = 0;
  for (int at = 1; at < words && count < MOST; at++) texts[count++] = text_of(names[at]);
  for (size_t file = 0; file < count; file++)
    for (int function = 0; function < FUNCTION_COUNT; function++) wanted[file][function] = ask(file, function);
  pthread_t threads[THREADS];
  for (size_t at = 0; at < THREADS; at++) pthread_create(&threads[at], NULL, judge, (void *)(at * count / THREADS));
  for (size_t at = 0; at < THREADS; at++) {
    void *found;
    pthread_join(threads[at], &found);
    wrong += (size_t)found;
  }
  for (size_t file = 0; file < count; file++) {
    free(texts[file].text);
    for (int function = 0; function < FUNCTION_COUNT; function++) free(wanted[file][function].text);
  }
  printf("%zu texts, %zu wrong\n", count, wrong);
  return count == 0 || wrong != 0;
}
