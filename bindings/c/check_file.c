/* check_file TYPE FILE: whether all of a file is one value of the type. */
#include <stdio.h>
#include <stdlib.h>
#include <string.h>

#include "wincode.h"

/* All bytes of a file, or null. */
static uint8_t *bytes_of(const char *path, size_t *length) {
  FILE *file = fopen(path, "rb");
  if (!file) return NULL;
  size_t room = 65536, read;
  uint8_t *bytes = malloc(room);
  *length = 0;
  while (bytes && (read = fread(bytes + *length, 1, room - *length, file)) > 0) {
    *length += read;
    if (*length == room) {
      uint8_t *more = realloc(bytes, room *= 2);
      if (!more) free(bytes);
      bytes = more;
    }
  }
  fclose(file);
  return bytes;
}

int main(int count, char **words) {
  if (count != 3) return fprintf(stderr, "check_file TYPE FILE\n"), 2;
  size_t length;
  uint8_t *bytes = bytes_of(words[2], &length);
  if (!bytes) return perror(words[2]), 2;
  struct wincode_report report;
  int32_t number = wincode_check_exact((const uint8_t *)words[1], strlen(words[1]), bytes, length, &report);
  free(bytes);
  if (number == WINCODE_OK) return printf("ok, %zu bytes, %zu parts\n", report.length, report.parts), 0;
  if (number < 0) return fprintf(stderr, "no type: fault %d at byte %zu\n", number, report.place), 2;
  char text[256];
  size_t told;
  if (wincode_message(number, report.first, report.second, (uint8_t *)text, sizeof text, &told) != WINCODE_OK) told = 0;
  return printf("refused at %zu: %.*s\n", report.length, (int)told, text), 1;
}
