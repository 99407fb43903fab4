// The library's version, and a sentence for each fault. foreign/build defines the macros TOLD (the version text) and
// NUMBER (the version as a number).
const char *listset_version(void) { return TOLD; }

unsigned listset_version_number(void) { return NUMBER; }

// Returns the text of an error code. The numbers are the values of `listset_fault` in listset.h.
const char *listset_fault_text(unsigned char fault) {
  switch (fault) {
  case 0: return "nothing is refused";
  case 10: return "the seats are not 1 to 64";
  case 11: return "the quota is above 16384";
  case 12: return "the keys do not increase or are too many";
  case 13: return "out of memory";
  case 14: return "there is no such list";
  case 15: return "the seat to be written is in use";
  case 16: return "not all seats are gathered";
  case 17: return "no seat is left to be split off";
  case 18: return "not two seats of one set";
  case 19: return "contains_now needs a lazy or a lock-free list";
  case 20: return "timed out: another thread was in a call for too long";
  default: return "no seat is here: it was moved, dropped, gathered or closed, or another thread is in a call from it";
  }
}
