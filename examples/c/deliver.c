/* A delivery: a sequential file of names, as a collection desk writes it by PUT, is read by GET and put into a search file by NSERT. */
#include "letters.h"
#include "nasturakh.h"

#include <stdio.h>
#include <stdlib.h>
#include <string.h>

/* The search file: a name and a year to a record. */
enum { WPB = 64, WPR = NAME_WORDS + 1, K = NAME_WORDS, CONTROL = 4, N = 20 };

/* The delivery: variable records, each its length, a year, and the words of a name as far as there are letters in them. */
enum { BLOCK = 14, LEADERS = 2, DATA = BLOCK - LEADERS, BLOCKS = 3 };

struct person {
  const char *name;
  uint32_t born;
};

/* The fifth is there already; the sixth finds no block left, and the shorter one behind it still has room. */
static const struct person people[] = {
    {"LOVELACE ADA", 1815}, {"BOOLE GEORGE", 1815}, {"ZUSE K", 1910}, {"NOETHER EMMY", 1882},
    {"LOVELACE ADA", 1816}, {"ECKERT PRESPER", 1919}, {"HAMILTON M", 1936},
};

static uint32_t session[NASTURAKH_SESSION] = {WPB, WPR, K, 0, CONTROL, N};
static uint32_t buffer[WPB];
static uint32_t work[WPR];
static uint8_t marks[N];

static uint32_t said(const char *call, uint64_t answer) {
  uint32_t number = nasturakh_number(answer);
  printf("%s %06o", call, (unsigned)number);
  return number;
}

/* Lays a person out as a record of the delivery; 0 where the name is no key. */
static int write_record(const struct person *p, uint32_t *record) {
  uint32_t words = NAME_WORDS;
  if (name_to_key(p->name, record + 2) != 0)
    return 0;
  while (words > 0 && record[1 + words] == 0)
    words--;
  record[0] = 2 + words;
  record[1] = p->born;
  return 1;
}

/* What the desk does: writes the list, and counts what was written. */
static uint32_t write_list(uint32_t *list) {
  uint32_t row[NASTURAKH_ROW] = {BLOCK, LEADERS, 1, 0, 0, 0, 0};
  uint32_t put = 0;
  for (size_t i = 0; i < sizeof people / sizeof *people; i++) {
    uint32_t record[DATA] = {0};
    if (!write_record(&people[i], record))
      continue;
    if (said("PUT", nasturakh_put(row, NASTURAKH_ROW, list, BLOCKS * BLOCK, record, DATA)) == NASTURAKH_DONE)
      put++;
    printf(", then at block %u word %u\n", (unsigned)row[NASTURAKH_ROW_BLOCK], (unsigned)row[NASTURAKH_ROW_AT]);
  }
  return put;
}

/* Reads the list, of which so many were put, and stores each record. */
static void store_list(const uint32_t *list, uint32_t put, uint32_t *file, size_t words) {
  uint32_t row[NASTURAKH_ROW] = {BLOCK, LEADERS, 1, 0, 0, 0, put};
  uint32_t record[DATA];
  while (said("GET", nasturakh_get(row, NASTURAKH_ROW, list, BLOCKS * BLOCK, record, DATA)) == NASTURAKH_DONE) {
    memset(work, 0, sizeof work);
    memcpy(work, record + 2, (record[0] - 2) * sizeof *work);
    work[K] = record[1];
    said(", NSERT", nasturakh_nsert(session, NASTURAKH_SESSION, file, words, buffer, WPB, work, WPR));
    putchar('\n');
  }
  putchar('\n');
}

static void walk(uint32_t *file, size_t words) {
  while (nasturakh_number(nasturakh_adv(session, NASTURAKH_SESSION, file, words, buffer, WPB, work, WPR)) == NASTURAKH_DONE) {
    print_key(work);
    printf(" %u\n", (unsigned)work[K]);
  }
}

int main(void) {
  static uint32_t list[BLOCKS * BLOCK];
  size_t words = nasturakh_file_words(session);
  uint32_t *file = (uint32_t *)malloc(words * sizeof *file);
  if (file == NULL)
    return 1;
  uint32_t put = write_list(list);
  nasturakh_create(session, NASTURAKH_SESSION, file, words);
  if (nasturakh_number(nasturakh_open(session, NASTURAKH_SESSION, file, words, buffer, WPB, marks, N)) != NASTURAKH_DONE)
    return 1;
  store_list(list, put, file, words);
  nasturakh_close(session, NASTURAKH_SESSION, file, words, buffer, WPB);
  if (nasturakh_number(nasturakh_open(session, NASTURAKH_SESSION, file, words, buffer, WPB, marks, N)) != NASTURAKH_DONE)
    return 1;
  walk(file, words);
  nasturakh_close(session, NASTURAKH_SESSION, file, words, buffer, WPB);
  free(file);
  return 0;
}
