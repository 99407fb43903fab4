/*
 * Refuses one allocation of a program: the allocation with the number REFUSE. Allocations within the C library are not
 * counted. The library built from this file is loaded before the C library (LD_PRELOAD), so the program calls the
 * malloc and realloc of this file.
 */

extern void *__libc_malloc(unsigned long size);
extern void *__libc_realloc(void *block, unsigned long size);
extern unsigned long getauxval(unsigned long type);
extern char *getenv(const char *name);
extern long strtol(const char *text, char **end, int base);

enum { ENTRY = 9 }; /* AT_ENTRY: where the program begins */

static const unsigned long NEAR = 1ul << 30; /* the program has fewer bytes, and the libraries lie farther away */

static unsigned long entry;
static long to_come;

__attribute__((constructor)) static void begin(void) {
  entry = getauxval(ENTRY);
  to_come = strtol(getenv("REFUSE"), 0, 10);
}

static int is_refused(void *caller) {
  int is_of_program = (unsigned long)caller - entry + NEAR < 2 * NEAR;
  return is_of_program && __atomic_sub_fetch(&to_come, 1, __ATOMIC_SEQ_CST) == 0;
}

void *malloc(unsigned long size) {
  return is_refused(__builtin_return_address(0)) ? 0 : __libc_malloc(size);
}

void *realloc(void *block, unsigned long size) {
  return is_refused(__builtin_return_address(0)) ? 0 : __libc_realloc(block, size);
}
