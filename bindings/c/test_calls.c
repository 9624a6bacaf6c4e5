/* test_calls: what the calls answer at rooms of each size, of types that can't be read, with each growth of memory refused
 * in turn, from two threads at once, and of random bytes. Linked with malloc and realloc wrapped. */
#include <pthread.h>
#include <stdio.h>
#include <stdlib.h>
#include <string.h>

#include "wincode.h"

static long refused_growth, growths;

void *__real_malloc(size_t size);
void *__real_realloc(void *held, size_t size);
void *__wrap_malloc(size_t size) { return ++growths == refused_growth ? NULL : __real_malloc(size); }
void *__wrap_realloc(void *held, size_t size) { return ++growths == refused_growth ? NULL : __real_realloc(held, size); }

#define HOLDS(fact) \
  if (!(fact)) return fprintf(stderr, "test_calls:%d: %s\n", __LINE__, #fact), 1

static const char LINES[] = "0: 07 .0 u8 7\n1: 01 .1 tag 1\n2: 0005 .1 u16 1280\n";
static const uint8_t VALUE[] = {7, 1, 0, 5};
static const char PAIR[] = "(u8, Option<u16>)";

/* Rooms of 0 to 200 bytes: whole lines, and nothing behind them. */
static int rooms(void) {
  for (size_t size = 0; size <= 200; size++) {
    uint8_t *room = malloc(size + 1);
    struct wincode_report report;
    struct wincode_page page;
    memset(room, 255, size + 1);
    HOLDS(wincode_explain((const uint8_t *)PAIR, strlen(PAIR), VALUE, 4, 0, room, size, &report, &page) == WINCODE_OK);
    HOLDS(page.length <= size && memcmp(room, LINES, page.length) == 0 && room[page.length] == 255);
    HOLDS(page.length + page.behind == strlen(LINES) && report.parts == 3);
    HOLDS(page.length == 0 || LINES[page.length - 1] == '\n');
    size_t length;
    int32_t told = wincode_message(WINCODE_NO_BOOL, 2, 0, room, size, &length);
    HOLDS(told == (size < 24 ? WINCODE_TOO_LITTLE_ROOM : WINCODE_OK) && length == 24);
    free(room);
  }
  return 0;
}

/* A type of 129 levels, one of a mebibyte, and none. */
static int types(void) {
  struct wincode_report report;
  size_t size = 1 << 20;
  char *text = malloc(size);
  for (size_t i = 0; i < 128; i++) memcpy(text + 4 * i, "Box<", 4);
  HOLDS(wincode_check((uint8_t *)text, 512, VALUE, 4, &report) == WINCODE_TYPE_TOO_DEEP);
  memset(text, ' ', size);
  text[size - 1] = '?';
  HOLDS(wincode_check((uint8_t *)text, size, VALUE, 4, &report) == WINCODE_TYPE_FAULT && report.place == size - 1);
  memcpy(text + size - 2, "u8", 2);
  HOLDS(wincode_check((uint8_t *)text, size, VALUE, 4, &report) == WINCODE_OK && report.length == 1);
  HOLDS(wincode_check((uint8_t *)text, 0, VALUE, 0, &report) == WINCODE_TYPE_FAULT);
  HOLDS(wincode_check((uint8_t *)"()", 2, VALUE, 0, &report) == WINCODE_OK && report.length == 0);
  free(text);
  return 0;
}

/* Each growth refused in turn: an error of memory, until none is met. */
static int memory(void) {
  static const uint8_t LIST[] = {2, 0, 0, 0, 0, 0, 0, 0, 1, 0, 0, 0, 0, 0, 0, 0, 97, 0, 0, 0, 0, 0, 0, 0, 0};
  for (long number = 1; number < 10000; number++) {
    uint8_t room[512];
    struct wincode_report report;
    struct wincode_page page;
    refused_growth = number, growths = 0;
    int32_t found = wincode_explain((const uint8_t *)"Vec<String>", 11, LIST, 25, 0, room, 512, &report, &page);
    long met = growths;
    refused_growth = 0;
    if (met < number) {
      HOLDS(found == WINCODE_OK && page.lines == 5);
      return 0;
    }
    HOLDS(found == WINCODE_TYPE_OUT_OF_MEMORY || found == WINCODE_TEXT_OUT_OF_MEMORY || found == WINCODE_OUT_OF_MEMORY ||
          (found == WINCODE_OK && page.lines == 5));
  }
  return 1;
}

/* In how many items the part stands that the last line of an explanation refuses: its place has a bracket for each. */
static size_t depth_told(const char *text, const uint8_t *bytes, size_t length) {
  static _Thread_local uint8_t room[1 << 16];
  struct wincode_report report;
  struct wincode_page page;
  wincode_explain((const uint8_t *)text, strlen(text), bytes, length, 0, room, sizeof room, &report, &page);
  size_t start = page.length ? page.length - 1 : 0, depth = 0;
  while (start > 0 && room[start - 1] != '\n') start--;
  for (size_t i = start; i + 7 < page.length && memcmp(room + i, "refused", 7) != 0; i++) depth += room[i] == '[';
  return depth;
}

/* Random bytes by some types: whatever is answered, the report counts these bytes, and tells the depth of a refusal. */
static void *random_bytes(void *seed) {
  static const char *const TYPES[] = {"Vec<(u64, String)>", "BTreeMap<u8, Vec<Option<char>>>", "short Vec<bool>",
                                      "enum u8 { 0: u64, 1: Result<u8, String>, 2: short Vec<[(bool, short Vec<bool>); 3]> }"};
  uint64_t state = *(uint64_t *)seed;
  for (int round = 0; round < 12500; round++) {
    uint8_t bytes[48];
    for (size_t i = 0; i < sizeof bytes; i++) {
      state = state * 6364136223846793005u + 1442695040888963407u;
      bytes[i] = (state >> 60) < 9 ? (uint8_t)((state >> 33) % 3) : (uint8_t)(state >> 40);
    }
    struct wincode_report report;
    const char *text = TYPES[round % 4];
    int32_t found = wincode_check((const uint8_t *)text, strlen(text), bytes, sizeof bytes, &report);
    if (found < 0 || report.length + report.behind != sizeof bytes || report.place > sizeof bytes) return seed;
    if (report.depth != (found > 0 ? depth_told(text, bytes, sizeof bytes) : 0)) return seed;
  }
  return NULL;
}

int main(void) {
  HOLDS(rooms() == 0 && types() == 0 && memory() == 0);
  uint64_t seeds[8] = {1, 2, 3, 4, 5, 6, 7, 8};
  for (int i = 0; i < 8; i += 2) {
    pthread_t one, other;
    void *first, *second;
    HOLDS(pthread_create(&one, NULL, random_bytes, &seeds[i]) == 0 && pthread_create(&other, NULL, random_bytes, &seeds[i + 1]) == 0);
    HOLDS(pthread_join(one, &first) == 0 && pthread_join(other, &second) == 0 && !first && !second);
  }
  return puts("ok") < 0;
}
