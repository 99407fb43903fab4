#include <listset.h>
#include <stdio.h>

static char recording[1 << 24];

int main(void) {
  size_t length = fread(recording, 1, sizeof recording, stdin), said_length;
  uint8_t status;
  char *said = listset_said(listset_judge, recording, length, &said_length, &status);
  fputs(said != NULL ? said : "no memory\n", stdout);
  free(said);
  return status;
}
