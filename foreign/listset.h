// listset.h: sorted-list sets that threads share, and the judge of their calls, for C99.
//
// THE JUDGE: each function reads a text, and returns a text and the exit status of the program `listset`. A recording
// has the recorded calls of any set. A schedule has calls to one of the lists, and the order of the threads' steps. A
// report is the result of a schedule: the calls with their replies, and an order that explains the replies. A draft is
// a schedule that states where threads stop rather than how many steps they make.
//
// A function writes the program's output, or the line about its error, to the start of `room`, sets `*status`, and
// returns the length of the text in bytes. If the length is greater than `size`, nothing is written to `room`. In that
// case, repeat the call with a buffer of that length, or use `listset_said`, which repeats the call.
//
//     size_t length;
//     uint8_t status;
//     char *said = listset_said(listset_check, report, strlen(report), &length, &status);
//
// docs/FOREIGN.md names the functions that print proved text. Four duties of the caller are not checked:
// - No pointer is null, even if the length beside it is 0.
// - `room` does not overlap a text. During a call, no other thread writes to the text or accesses `room` or the status.
// - malloc, realloc and free belong to the same allocator, and a block is aligned to each power of two up to 16 that
//   divides the block's size.
// - No function is called in a signal handler, or in the forked child of a process with threads.
//
// Any number of threads may call at the same time. A call stores nothing for later calls. No call blocks, except that
// `listset_judge_from` waits for its input.
//
// THE SETS: each thread calls through its own seat. `listset_open` stores a seat that contains all seats of the set;
// `listset_split` splits a seat off for one more thread; `listset_gather` merges one seat of a set into another. Once a
// seat has gathered all others, `listset_close` closes the set and `listset_keys` returns the final keys.
//
//     uint32_t none;
//     listset_seat seat = LISTSET_NONE;
//     listset_fault fault = listset_open(LISTSET_LAZY, 4, 1000, 1, &none, 0, &seat);
//     if (fault != LISTSET_OK) puts(listset_fault_text(fault));
//     if (listset_add(&seat, 7).is == LISTSET_TRUE) ..
//
// A seat has a quota (the number of successful adds that it may make). A remove does not restore the quota.
// `listset_renew` closes a set and opens a new set with the same keys.
//
// Compare the field `is` of a reply with LISTSET_TRUE, because LISTSET_FULL and LISTSET_NO_SEAT are not 0 either. A
// reply itself is a struct, and does not compile as a condition. With -Wextra, gcc and clang warn if a reply or a fault
// is ignored.
//
// A refused call changes nothing and returns LISTSET_NO_SEAT or a fault. A call is refused in these cases:
// - the seat for the call is empty, or the seat for a result is not empty;
// - two seats to merge have different lists or numbers;
// - the set is to be closed, but some seats were split off and not merged back;
// - sizes or keys are out of range;
// - an allocation fails.
//
// Three further duties of the caller are not checked:
// - A seat is initialized with LISTSET_NONE, written only by the functions of listset.h, passed by its address, and
//   never copied.
// - Only one thread at a time uses a seat. A seat passes from one thread to another when a thread is started or
//   joined, or under a lock.
// - Sets that are open at the same time have different numbers, and the number of a new set is not the number of a set
//   with a remaining receipt. The two seats, or the seat and the receipt, that are passed to one function are different
//   objects.
//
// If a call needs a lock that another thread holds, the call spins at first, and then repeatedly yields the processor.
#ifndef LISTSET_H
#define LISTSET_H

#include <stdbool.h>
#include <stddef.h>
#include <stdint.h>
#include <stdio.h>
#include <stdlib.h>

#define LISTSET_VERSION_NUMBER 100 /* of this header: 10203 is the version 1.2.3 */
#define LISTSET_USED __attribute__((warn_unused_result))
#define LISTSET_BYTE __attribute__((packed)) // Makes an enum one byte large: the functions return it in this size.

#ifdef __cplusplus
extern "C" {
#endif

/// The status that a function of the judge sets if the function fails. If it succeeds, the status is LISTSET_OK (0).
enum {
  LISTSET_WRONG_TEXT = 1,  ///< An error in the text, an order that is refused, or an event that is not enabled.
  LISTSET_WRONG_VALUE = 2, ///< A value, an option or a name that does not exist.
  LISTSET_NO_MEMORY = 3    ///< An allocation failed.
};

/// Returns four constant lines about the library: `listset` and the version; the version and the logic of the Rattle
/// toolchain (the kit); `commit` and the commit of the sources (40 zeros if they were not committed); and `proof
/// checked` if the library is proved, otherwise `proof missing`.
const char *listset_version(void);

/// Returns the library's version as a number in the format of LISTSET_VERSION_NUMBER.
uint32_t listset_version_number(void);

/// Runs a schedule (calls, and the order of the threads' steps) and returns its report (the calls with their replies,
/// and an order that explains them).
size_t listset_replay(const char *schedule, size_t length, char *room, size_t size, uint8_t *status);

/// Judges a recording (calls of any set, with their replies and times). Returns `ok N calls` and LISTSET_OK if some
/// order explains its calls. Otherwise returns `not linearizable`, calls that show why, and LISTSET_WRONG_TEXT.
size_t listset_judge(const char *recording, size_t length, char *room, size_t size, uint8_t *status);

/// Judges the recording in the file with the descriptor `file`. The recording can have any length. Reads to the
/// recording's end or to the first error, and blocks while reading. If `room` is too short, the output is lost; 8,192
/// bytes are enough.
size_t listset_judge_from(int32_t file, char *room, size_t size, uint8_t *status);

/// Diagnoses a recording that `listset_judge` refuses. Returns LISTSET_WRONG_TEXT and a text with calls that show the
/// error, the wrong operation, how often it is wrong, and a likely cause. Returns an empty text and LISTSET_OK if some
/// order explains the recording, or if the text is not a recording. Tested, not proved.
size_t listset_why(const char *recording, size_t length, char *room, size_t size, uint8_t *status);

/// Returns `ok` if the order in a report explains the report's calls, otherwise the first error in the order.
size_t listset_check(const char *report, size_t length, char *room, size_t size, uint8_t *status);

/// Returns the trace of a schedule: a line for each event (a step, or the start of a call).
size_t listset_trace(const char *schedule, size_t length, char *room, size_t size, uint8_t *status);

/// Returns the trace of a schedule (a line for each event), with the chain of nodes after each event that changed the
/// chain.
size_t listset_trace_with_chains(const char *schedule, size_t length, char *room, size_t size, uint8_t *status);

/// Expands a draft (a schedule that states where threads stop rather than how many steps they make) into a schedule.
size_t listset_draft(const char *draft, size_t length, char *room, size_t size, uint8_t *status);

/// The part of a run to draw: the first and the last moment (numbers of events in the run), and the number of columns.
/// 0 selects the default for each of these numbers.
typedef struct {
  uint32_t from, to, width;
} listset_window;

/// The arguments for generating a random schedule. `kind` is "coarse", "fine", "optimistic", "lazy" or "lock-free".
typedef struct {
  const char *kind;
  uint32_t threads, quota, calls, keys;
  uint64_t seed;
} listset_plan;

/// Draws a schedule or a report as text. `options` contains the values of --from, --to and --width, separated by zero
/// bytes. Each value is empty, or `=` and a number. `listset_draw` has a `listset_window` in place of `options`.
size_t listset_show(const char *text, size_t length, const char *options, size_t options_length, char *room, size_t size,
                    uint8_t *status);

/// Draws a schedule or a report as an SVG. For `options`, see `listset_show`. `listset_draw_svg` has a `listset_window`
/// in place of `options`.
size_t listset_show_svg(const char *text, size_t length, const char *options, size_t options_length, char *room, size_t size,
                        uint8_t *status);

/// Generates a schedule. `values` are KIND THREADS QUOTA CALLS KEYS SEED, separated by zero bytes. `listset_generate`
/// has a `listset_plan` in place of `values`.
size_t listset_gen(const char *values, size_t length, char *room, size_t size, uint8_t *status);

/// Returns the names of all examples, each with its list and a description.
size_t listset_examples(char *room, size_t size, uint8_t *status);

/// Returns the schedule of the example called `name`.
size_t listset_example(const char *name, size_t length, char *room, size_t size, uint8_t *status);

/// Returns the broken report of the example called `name`: the report of a run on a list without the check that the
/// example is about.
size_t listset_broken_example(const char *name, size_t length, char *room, size_t size, uint8_t *status);

/// Returns a line about each error message, and a sentence about each cause.
size_t listset_faults(char *room, size_t size, uint8_t *status);

/// A seat of a set (one thread's access to the set), the keys of a closed set, or nothing. Each call writes to the seat
/// that it uses, so calls of two threads are faster if their seats are at least 128 bytes apart.
typedef struct {
  bool full;
  void *at;
} listset_seat;

#define LISTSET_NONE {false, NULL}

/// A receipt (proof of the calls that a seat has made so far), or nothing. A receipt also covers the calls of merged
/// seats and of accepted receipts. In the order of all calls, the covered calls precede the later calls of each seat
/// that accepts the receipt. A receipt is initialized with LISTSET_NONE, and can be passed to any thread.
typedef struct {
  bool full;
  void *at;
} listset_receipt;

/// The five lists.
typedef enum LISTSET_BYTE listset_list { LISTSET_COARSE, LISTSET_FINE, LISTSET_OPTIMISTIC, LISTSET_LAZY, LISTSET_LOCK_FREE } listset_list;

/// The possible replies of calls.
typedef enum LISTSET_BYTE listset_answer {
  LISTSET_FALSE = 0,       ///< Of add: the key was present. Of remove and contains: it was absent.
  LISTSET_TRUE = 1,        ///< Of add: the key was absent. Of remove and contains: it was present.
  LISTSET_FULL = 2,        ///< Of add: the key is absent, and the seat has used its quota.
  LISTSET_AT = 3,          ///< Of ceiling: the key was written to *at.
  LISTSET_NOTHING = 4,     ///< Of ceiling: the set has no key at or above this one.
  LISTSET_MAY_BLOCK = 254, ///< Of contains_now: a coarse, fine or optimistic list. No call was made.
  LISTSET_NO_SEAT = 255    ///< The seat is empty or a closed set; or it is lost after a loop of 2^64 - 1 rounds.
} listset_answer;

/// The reply of a call. Compare the field `is`, as in `reply.is == LISTSET_TRUE`. A reply is a struct, so code that
/// uses one as a condition or as a fault does not compile.
typedef struct listset_reply {
  listset_answer is;
} listset_reply;

/// The reason why a function refused its arguments.
typedef enum LISTSET_BYTE listset_fault {
  LISTSET_OK = 0,          ///< The function refused nothing.
  LISTSET_BAD_SEATS = 10,  ///< The number of seats is not 1 to 64.
  LISTSET_BAD_QUOTA = 11,  ///< The quota is above 16,384.
  LISTSET_BAD_KEYS = 12,   ///< The keys are not in strictly increasing order, or are more than 1,048,576.
  LISTSET_OUT_OF_MEMORY = 13, ///< An allocation failed.
  LISTSET_BAD_KIND = 14,   ///< No list has this number.
  LISTSET_IS_SEAT = 15,    ///< `out` is not empty.
  LISTSET_SEATS_OUT = 16,  ///< Not all seats of the set are gathered.
  LISTSET_NO_MORE = 17,    ///< No seat can be split off.
  LISTSET_NO_GATHER = 18,  ///< The arguments are not two seats, or a seat and a receipt, of one list and number.
  LISTSET_READS_BLOCK = 19, ///< Only of the bindings: LISTSET_MAY_BLOCK as a fault.
  LISTSET_TIMED_OUT = 20,  ///< Only of the bindings: another thread was in a call for too long.
  LISTSET_NONE_THERE = 255 ///< A seat is empty or a closed set.
} listset_fault;

/// Returns a constant sentence that describes a fault.
const char *listset_fault_text(listset_fault fault);

/// Opens a set with `seats` seats (one for each thread) and with the `count` keys in `keys`, in strictly increasing
/// order. Each seat may add `quota` keys. Stores a seat in `out`; all other seats can be split off this seat. `out`
/// must be empty. Two open sets must have different numbers, because `listset_gather` compares the sets of two seats by
/// `number`.
LISTSET_USED listset_fault listset_open(listset_list kind, uint32_t seats, uint32_t quota, uint64_t number, const uint32_t *keys,
                                        size_t count, listset_seat *out);

/// Splits a seat (one thread's access to the set) off `seat` and stores the new seat in `out`. `out` must be empty.
/// Returns LISTSET_NO_MORE if all seats have been split off, or if a seat was merged into `seat`.
LISTSET_USED listset_fault listset_split(listset_seat *seat, listset_seat *out);

/// Adds a key. Replies LISTSET_TRUE if the key was absent, LISTSET_FALSE if it was present. Replies LISTSET_FULL if the
/// key is absent but the seat (one thread's access to the set) has used up its quota of adds.
LISTSET_USED listset_reply listset_add(listset_seat *seat, uint32_t key);

/// Removes a key. Replies LISTSET_TRUE if the key was present, otherwise LISTSET_FALSE.
LISTSET_USED listset_reply listset_remove(listset_seat *seat, uint32_t key);

/// Replies LISTSET_TRUE if a key is in the set, otherwise LISTSET_FALSE.
LISTSET_USED listset_reply listset_contains(listset_seat *seat, uint32_t key);

/// Finds the smallest key of the set that is at least `key`. Replies LISTSET_AT and writes the key to `*at`, or replies
/// LISTSET_NOTHING if there is none. On a lock-free list, the call can wait until another thread adds or removes a key.
LISTSET_USED listset_reply listset_ceiling(listset_seat *seat, uint32_t key, uint32_t *at);

/// Replies like `listset_contains`, but waits for no lock and executes at most `listset_most_reads` steps, whatever
/// other threads do. Only for lazy and lock-free lists: on any other list, replies LISTSET_MAY_BLOCK without reading
/// the list.
LISTSET_USED listset_reply listset_contains_now(listset_seat *seat, uint32_t key);

/// Returns the maximum number of steps of `listset_contains_now` on a list that is opened for `seats` threads, with the
/// quota `quota` and with `opening` keys. Returns 0 if no set can be opened with these numbers.
uint64_t listset_most_reads(uint32_t seats, uint32_t quota, uint32_t opening);

/// Stores a receipt (a record of the calls of `seat` so far) in `out`. `out` must be empty. The receipt can be sent to
/// another thread with any message.
LISTSET_USED listset_fault listset_receipt_of(listset_seat *seat, listset_receipt *out);

/// Passes the receipt `given` to `seat`, a seat (one thread's access) of the same set. In the order of all calls, later
/// calls of `seat` follow every call that the receipt covers. `given` is empty afterwards.
LISTSET_USED listset_fault listset_after(listset_seat *seat, listset_receipt *given);

/// Returns how many seats (one for each thread) `seat` contains, including itself. Writes the number of all seats of
/// the set to `*all`. Both numbers are 0 if `seat` is empty or a closed set.
uint64_t listset_seats_within(listset_seat *seat, uint32_t *all);

/// Merges `from`, including all seats (one for each thread) that it contains, into `into`. `from` is empty afterwards.
LISTSET_USED listset_fault listset_gather(listset_seat *into, listset_seat *from);

/// Closes the set. Every seat of the set (one for each thread) must be part of `seat`, that is, either never split off
/// or merged back. Afterwards, `seat` contains the final keys. If the allocation for the final keys fails, the set
/// stays open.
LISTSET_USED listset_fault listset_close(listset_seat *seat);

/// Copies the keys of a closed set to `room` in strictly increasing order, if they fit into the `places` elements of
/// `room`. Returns the number of keys, or SIZE_MAX if `closed` is not a closed set.
size_t listset_keys(listset_seat *closed, uint32_t *room, size_t places);

/// Merges all seats (one for each thread) in the `places` elements of `seats` into the first element, and closes the
/// set. Elements of the array may be empty. If a seat of the set is missing, returns LISTSET_SEATS_OUT and changes
/// nothing. After LISTSET_OUT_OF_MEMORY nothing is lost, and the call can be repeated.
LISTSET_USED listset_fault listset_close_all(listset_seat *seats, size_t places);

/// Closes a set, and opens a set of the list `kind` with the same keys. The array `seats` must contain all seats of the
/// old set (one for each thread). Afterwards the first `count` elements of the array (`count` is at most `places`)
/// contain the seats of the new set, each with the quota `quota`. During the call, no other thread may use any of the
/// seats.
///
/// Returns the errors of `listset_open` and `listset_close_all`. After LISTSET_OUT_OF_MEMORY, and after
/// LISTSET_BAD_KEYS for more than 1,048,576 final keys, nothing is lost: the array still contains the seats, or its
/// first element is the closed set. The call can then be repeated.
LISTSET_USED listset_fault listset_renew(listset_seat *seats, size_t places, listset_list kind, uint32_t count, uint32_t quota,
                                         uint64_t number);

/// Drops the contents of `seat`. Afterwards `seat` is empty. If a seat of a set (one for each thread) has been dropped,
/// the set cannot be closed.
void listset_drop(listset_seat *seat);

/// Drops a receipt (a record of the calls that a seat has seen). `receipt` is empty afterwards.
static inline void listset_drop_receipt(listset_receipt *receipt) { listset_drop((listset_seat *)receipt); }

// The type of `listset_show` and `listset_show_svg`, and a function that calls one of the two with a `listset_window`.
typedef size_t listset_drawing(const char *, size_t, const char *, size_t, char *, size_t, uint8_t *);

static inline size_t listset_drawn(listset_drawing *function, const char *text, size_t length, const listset_window *window, char *room,
                                   size_t size, uint8_t *status) {
  const uint32_t numbers[] = {window->from, window->to, window->width};
  char options[48] = "";
  size_t at = 0;
  for (int i = 0; i < 3; i++, at++)
    if (numbers[i] != 0) at += (size_t)snprintf(options + at, 12, "=%lu", (unsigned long)numbers[i]);
  return function(text, length, options, at - 1, room, size, status);
}

/// Draws a schedule or a report as text.
static inline size_t listset_draw(const char *text, size_t length, const listset_window *window, char *room, size_t size, uint8_t *status) {
  return listset_drawn(listset_show, text, length, window, room, size, status);
}

/// Draws a schedule or a report as an SVG.
static inline size_t listset_draw_svg(const char *text, size_t length, const listset_window *window, char *room, size_t size,
                                      uint8_t *status) {
  return listset_drawn(listset_show_svg, text, length, window, room, size, status);
}

/// Generates a random schedule.
static inline size_t listset_generate(const listset_plan *plan, char *room, size_t size, uint8_t *status) {
  char values[128];
  int count = snprintf(values, sizeof values, "%.32s%c%lu%c%lu%c%lu%c%lu%c%llu", plan->kind, 0, (unsigned long)plan->threads, 0,
                       (unsigned long)plan->quota, 0, (unsigned long)plan->calls, 0, (unsigned long)plan->keys, 0,
                       (unsigned long long)plan->seed);
  return listset_gen(values, (size_t)count, room, size, status);
}

/// The type of the judge's functions that read one text and have no other input.
typedef size_t listset_function(const char *text, size_t length, char *room, size_t size, uint8_t *status);

/// Calls `function` with a text. Returns the output in a block that ends with a zero byte and that the caller must
/// free. Writes the length without the zero byte to `*said_length`. Returns NULL with the status LISTSET_NO_MEMORY if
/// malloc fails.
static inline char *listset_said(listset_function *function, const char *text, size_t length, size_t *said_length,
                                 uint8_t *status) {
  for (size_t size = 4096;;) {
    char *room = (char *)malloc(size + 1);
    if (room == NULL) {
      *status = LISTSET_NO_MEMORY;
      return NULL;
    }
    *said_length = function(text, length, room, size, status);
    if (*said_length <= size) {
      room[*said_length] = '\0';
      return room;
    }
    free(room);
    size = *said_length;
  }
}

#ifdef __cplusplus
}
#endif
#endif
