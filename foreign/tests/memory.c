// Makes each allocation of a call fail in turn. The call must report the failed allocation or succeed with less memory,
// and must free every block. Link with --wrap for malloc, realloc and free.
//
//     memory SCHEDULE REPORT DRAFT RECORDING
#include "listset.h"

#include <stdio.h>
#include <string.h>

static const char SAYS[] = "listset: out of memory\n";
static size_t refused_at, asked, blocks;

void *__real_malloc(size_t);
void *__real_realloc(void *, size_t);
void __real_free(void *);

static int is_refused(void) { return ++asked == refused_at; }

void *__wrap_malloc(size_t size) {
  void *block = is_refused() ? NULL : __real_malloc(size);
  blocks += block != NULL;
  return block;
}

void *__wrap_realloc(void *block, size_t size) { return is_refused() ? NULL : __real_realloc(block, size); }

void __wrap_free(void *block) {
  blocks -= block != NULL;
  __real_free(block);
}

static char text[1 << 20], room[1 << 20], wanted[1 << 20];
static size_t length;

static size_t show(const char *given, size_t count, char *to, size_t size, uint8_t *status) {
  return listset_show(given, count, "", 0, to, size, status);
}

static size_t show_svg(const char *given, size_t count, char *to, size_t size, uint8_t *status) {
  return listset_show_svg(given, count, "=1\0\0=60", 7, to, size, status);
}

static size_t gen(const char *given, size_t count, char *to, size_t size, uint8_t *status) {
  (void)given, (void)count;
  static const char VALUES[] = "lazy\0002\0004\0003\0005\0001";
  return listset_gen(VALUES, sizeof VALUES - 1, to, size, status);
}

static size_t example(const char *given, size_t count, char *to, size_t size, uint8_t *status) {
  (void)given, (void)count;
  return listset_example("snip", 4, to, size, status);
}

static size_t faults(const char *given, size_t count, char *to, size_t size, uint8_t *status) {
  (void)given, (void)count;
  return listset_faults(to, size, status);
}

static int is_said(const char *want, size_t count, size_t found) { return found == count && memcmp(room, want, count) == 0; }

// Makes the call once without a failed allocation, then repeatedly, with a different allocation failing each time.
// Returns the number of failures that the call reported, or 0 after an error.
static size_t tried(const char *name, listset_function *function) {
  uint8_t due, status;
  size_t told = 0;
  refused_at = 0;
  size_t count = function(text, length, wanted, sizeof wanted, &due);
  for (size_t at = 1;; at++) {
    refused_at = at, asked = 0;
    size_t found = function(text, length, room, sizeof room, &status);
    int tells = asked >= at && status == LISTSET_NO_MEMORY && is_said(SAYS, strlen(SAYS), found);
    told += tells;
    if (blocks != 0 || !(tells || (status == due && is_said(wanted, count, found)))) {
      printf("%s, allocation %zu refused: status %d, %zu blocks kept, %.*s\n", name, at, status, blocks, (int)found, room);
      return 0;
    }
    if (asked < at) return told;
  }
}

// Makes the call through `listset_said` repeatedly, with a different allocation failing each time. Returns how often
// `listset_said` returned NULL.
static size_t tried_said(listset_function *function) {
  uint8_t due, status;
  size_t count = 0, found, none = 0;
  refused_at = 0;
  char *want = listset_said(function, text, length, &count, &due);
  for (size_t at = 1;; at++) {
    refused_at = at, asked = blocks = 0;
    char *said = listset_said(function, text, length, &found, &status);
    int is_right = status == due ? said != NULL && found == count && memcmp(said, want, count + 1) == 0
                                 : status == LISTSET_NO_MEMORY && (said == NULL || strcmp(said, SAYS) == 0);
    none += said == NULL;
    free(said);
    if (!is_right || blocks != 0) {
      printf("listset_said, allocation %zu refused: status %d, %zu blocks kept\n", at, status, blocks);
      return 0;
    }
    if (asked < at) break;
  }
  free(want);
  return none;
}

static void read_text(const char *name) {
  FILE *file = fopen(name, "rb");
  if (file == NULL) exit(2);
  length = fread(text, 1, sizeof text, file);
  fclose(file);
}

int main(int count, char **names) {
  static const struct {
    int file;
    const char *name;
    listset_function *function;
  } CALLS[] = {{1, "replay", listset_replay}, {1, "trace", listset_trace_with_chains}, {1, "show", show}, {1, "show --svg", show_svg},
               {2, "check", listset_check},   {3, "draft", listset_draft},             {1, "gen", gen},   {1, "example", example},
               {4, "judge", listset_judge}};
  size_t failed = count != 5;
  for (size_t at = 0; !failed && at < sizeof CALLS / sizeof *CALLS; at++) {
    read_text(names[CALLS[at].file]);
    // Resets the counts, because reading the file has allocated memory too.
    asked = blocks = 0;
    size_t told = tried(CALLS[at].name, CALLS[at].function);
    failed += told == 0;
    printf("%s: %zu refusals told\n", CALLS[at].name, told);
  }
  return failed != 0 || tried_said(faults) < 2; // The text is longer than the first block.
}
