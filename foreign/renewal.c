// Implements `listset_close_all` and `listset_renew` of listset.h with the proved functions. The toolchain's compiler
// has no headers, so no header is included. The types and numbers are copied from listset.h.
typedef __SIZE_TYPE__ size_t;
typedef __UINT64_TYPE__ uint64_t;
typedef __UINT32_TYPE__ uint32_t;
typedef unsigned char fault;

typedef struct {
  _Bool full;
  void *at;
} seat;

enum { OK = 0, BAD_SEATS = 10, BAD_QUOTA = 11, OUT_OF_MEMORY = 13, BAD_KIND = 14, SEATS_OUT = 16, NO_SEAT = 255 };
enum { LISTS = 5, MOST_SEATS = 64, MOST_QUOTA = 16384 };

void *malloc(size_t);
void free(void *);
fault listset_open(fault kind, uint32_t seats, uint32_t quota, uint64_t number, const uint32_t *keys, size_t count, seat *out);
fault listset_split(seat *, seat *out);
fault listset_gather(seat *into, seat *from);
fault listset_close(seat *);
size_t listset_keys(seat *closed, uint32_t *room, size_t places);
uint64_t listset_seats_within(seat *, uint32_t *all);
void listset_drop(seat *);

static int is_closed(seat *it) {
  uint32_t none;
  return it->full && listset_keys(it, &none, 0) != (size_t)-1;
}

// Returns the index of the first element of the array that contains a seat (one thread's access to the set), or
// `places` if all elements are empty.
static size_t empty_places(const seat *seats, size_t places) {
  size_t first = 0;
  while (first < places && !seats[first].full) first++;
  return first;
}

// Returns whether the array contains all seats (one for each thread) of a set. `first` is the index of the array's
// first element that contains a seat.
static int are_all(seat *seats, size_t first, size_t places) {
  uint32_t all, of_other;
  uint64_t within = listset_seats_within(&seats[first], &all);
  for (size_t at = first + 1; at < places; at++) within += listset_seats_within(&seats[at], &of_other);
  return within == all;
}

fault listset_close_all(seat *seats, size_t places) {
  const size_t first = empty_places(seats, places);
  if (first == places) return NO_SEAT;
  if (!is_closed(&seats[first])) {
    if (!are_all(seats, first, places)) return SEATS_OUT;
    for (size_t at = first + 1; at < places; at++) {
      const fault refused = seats[at].full ? listset_gather(&seats[first], &seats[at]) : OK;
      if (refused != OK) return refused;
    }
  }
  if (first != 0) {
    seats[0] = seats[first];
    seats[first] = (seat){0, 0};
  }
  return is_closed(&seats[0]) ? OK : listset_close(&seats[0]);
}

// Opens a set with the keys of the closed set `closed`, and stores the new set's seat (one thread's access to the set)
// in `closed`.
static fault opened_again(seat *closed, fault kind, uint32_t count, uint32_t quota, uint64_t number) {
  uint32_t none;
  const size_t many = listset_keys(closed, &none, 0);
  uint32_t *keys = malloc((many + 1) * sizeof *keys);
  if (keys == 0) return OUT_OF_MEMORY;
  listset_keys(closed, keys, many);
  seat opened = {0, 0};
  const fault refused = listset_open(kind, count, quota, number, keys, many, &opened);
  free(keys);
  if (refused == OK) {
    listset_drop(closed);
    *closed = opened;
  }
  return refused;
}

fault listset_renew(seat *seats, size_t places, fault kind, uint32_t count, uint32_t quota, uint64_t number) {
  if (kind >= LISTS) return BAD_KIND;
  if (count == 0 || count > MOST_SEATS || count > places) return BAD_SEATS;
  if (quota > MOST_QUOTA) return BAD_QUOTA;
  fault refused = listset_close_all(seats, places);
  if (refused == OK) refused = opened_again(&seats[0], kind, count, quota, number);
  for (uint32_t at = 1; refused == OK && at < count; at++) refused = listset_split(&seats[0], &seats[at]);
  return refused;
}
