// Implements, with liblistset, the commands of the program that need no threads. tests/foreign.py uses this file.
#include "listset.h"

#include <stdbool.h>
#include <stdio.h>
#include <string.h>

#define MOST 67108864 // the maximum number of bytes of an input; a longer input is not read to its end
#define ROOM (1 << 24)

static char input[MOST + 1], room[ROOM], joined[4096];
static const char *values[16];
static int value_count;
static bool is_on;
static const char *options[3];

// Returns the program's output for a recording: the verdict and, below a refusal, the diagnosis.
static size_t judge_and_why(const char *text, size_t length, char *to, size_t size, uint8_t *status) {
  uint8_t of_why;
  size_t said = listset_judge(text, length, to, size, status);
  if (said < 16 || memcmp(to, "not linearizable", 16) != 0) return said;
  return said + listset_why(text, length, to + said, size - said, &of_why);
}

static const struct {
  const char *word;
  listset_function *plain, *with_flag;
} OF_A_FILE[] = {
    {"replay", listset_replay, listset_replay},
    {"check", listset_check, listset_check},
    {"judge", judge_and_why, judge_and_why},
    {"draft", listset_draft, listset_draft},
    {"trace", listset_trace, listset_trace_with_chains},
};

// Joins the words, with `before` before each word and a zero byte between two words. Returns the total length.
static size_t join(const char **words, int count, const char *before) {
  size_t length = 0;
  for (int at = 0; at < count; at++) {
    if (at > 0) joined[length++] = '\0';
    if (words[at] != NULL) length += sprintf(joined + length, "%s%s", before, words[at]);
  }
  return length;
}

static void read_words(int count, char **words) {
  static const char *NAMES[] = {"--from", "--to", "--width"};
  for (int at = 0; at < count; at++) {
    int option = 0;
    while (option < 3 && strcmp(words[at], NAMES[option]) != 0) option++;
    if (option < 3)
      options[option] = words[++at];
    else if (strncmp(words[at], "--", 2) == 0)
      is_on = true;
    else
      values[value_count++] = words[at];
  }
}

static size_t read_input(void) {
  FILE *file = value_count > 0 ? fopen(values[0], "rb") : stdin;
  if (file == NULL) {
    fputs("listset: cannot read\n", stderr);
    exit(LISTSET_WRONG_TEXT);
  }
  return fread(input, 1, sizeof input, file);
}

static size_t asked(const char *word, uint8_t *status) {
  if (strcmp(word, "faults") == 0) return listset_faults(room, ROOM, status);
  if (strcmp(word, "gen") == 0) return listset_gen(joined, join(values, value_count, ""), room, ROOM, status);
  if (strcmp(word, "example") == 0) {
    listset_function *function = is_on ? listset_broken_example : listset_example;
    return value_count == 0 ? listset_examples(room, ROOM, status) : function(values[0], strlen(values[0]), room, ROOM, status);
  }
  if (strcmp(word, "show") == 0) {
    size_t length = read_input(), words = join(options, 3, "=");
    return (is_on ? listset_show_svg : listset_show)(input, length, joined, words, room, ROOM, status);
  }
  size_t at = 0, length = read_input();
  while (strcmp(word, OF_A_FILE[at].word) != 0) at++;
  return (is_on ? OF_A_FILE[at].with_flag : OF_A_FILE[at].plain)(input, length, room, ROOM, status);
}

int main(int count, char **words) {
  uint8_t status = 255;
  read_words(count - 2, words + 2);
  size_t length = asked(words[1], &status);
  // Only an error line begins with `listset: `. An error line is written to standard error.
  fwrite(room, 1, length, length >= 9 && memcmp(room, "listset: ", 9) == 0 ? stderr : stdout);
  return status;
}
