/* Makes a file of names, finds one, walks the file in order, and turns it to the second block form. */
#include "letters.h"
#include "nasturakh.h"

#include <stdio.h>
#include <stdlib.h>
#include <string.h>

enum { WPB = 64, WPR = 6, K = NAME_WORDS, CONTROL = 4, N = 20 };

struct person {
  const char *name;
  uint32_t born;
};

/* The last three are refused: cut after fifteen letters the first two would be one name, and the third has a sign that no key holds. */
static const struct person people[] = {
    {"LOVELACE ADA", 1815}, {"HOPPER GRACE", 1906}, {"TURING ALAN", 1912},    {"ZUSE KONRAD", 1910},
    {"NOETHER EMMY", 1882}, {"BARTIK JEAN", 1924},  {"ECKERT PRESPER", 1919}, {"MAUCHLY JOHN", 1907},
    {"PETER ROZSA", 1905},  {"BOOLE GEORGE", 1815}, {"HAMILTON M", 1936},     {"WILKES MAURICE", 1913},
    {"BARTHOLOMEW CHRISTINE", 1901}, {"BARTHOLOMEW CHRISTOPHER", 1902}, {"D'OCAGNE M", 1862},
};

/* All that a session is lent. */
static uint32_t session[NASTURAKH_SESSION] = {WPB, WPR, K, 0, CONTROL, N};
static uint32_t *file;
static size_t file_words;
static uint32_t buffer[WPB];
static uint32_t work[WPR];
static uint8_t marks[N];

/* Puts a name into the workspace, the year 0 behind it, or says why that can't be. */
static int put_name(const char *name) {
  memset(work, 0, sizeof work);
  size_t wrong = name_to_key(name, work);
  if (wrong != 0)
    say_fault(name, wrong);
  return wrong == 0;
}

static void print_record(void) {
  print_key(work);
  printf(" %u\n", (unsigned)work[K]);
}

/* Prints the call and its answer, and hands its number on. */
static uint32_t said(const char *call, uint64_t answer) {
  uint32_t number = nasturakh_number(answer);
  printf("%s %06o, transfers %u\n", call, (unsigned)number, (unsigned)nasturakh_transfers(answer));
  return number;
}

static uint32_t open_file(void) {
  return said("OPEN ", nasturakh_open(session, NASTURAKH_SESSION, file, file_words, buffer, WPB, marks, N));
}

static uint32_t close_file(void) {
  return said("CLOSE", nasturakh_close(session, NASTURAKH_SESSION, file, file_words, buffer, WPB));
}

static void store_all(void) {
  for (size_t i = 0; i < sizeof people / sizeof *people; i++) {
    if (!put_name(people[i].name))
      continue;
    work[K] = people[i].born;
    said("NSERT", nasturakh_nsert(session, NASTURAKH_SESSION, file, file_words, buffer, WPB, work, WPR));
  }
}

static void find(const char *name) {
  if (!put_name(name))
    return;
  if (said("SEEK ", nasturakh_seek(session, NASTURAKH_SESSION, file, file_words, buffer, WPB, work, WPR)) == NASTURAKH_DONE)
    print_record();
}

/* From the start of the file: OPEN has left the session without a position. */
static void walk(void) {
  while (nasturakh_number(nasturakh_adv(session, NASTURAKH_SESSION, file, file_words, buffer, WPB, work, WPR)) ==
         NASTURAKH_DONE)
    print_record();
}

/* For a desk whose blocks say what they are: the closed file in the second form. Its session has a word more, the form. */
static void turn_file(void) {
  uint32_t formed[NASTURAKH_SESSION_FORM];
  memcpy(formed, session, sizeof session);
  formed[NASTURAKH_FORM] = 1;
  if (said("TURN ", nasturakh_turn(formed, NASTURAKH_SESSION_FORM, file, file_words, marks, N)) == NASTURAKH_DONE)
    printf("form %u, block 1 begins with %u\n", (unsigned)formed[NASTURAKH_FORM], (unsigned)file[file_words - (size_t)N * WPB]);
}

int main(void) {
  file_words = nasturakh_file_words(session);
  file = (uint32_t *)malloc(file_words * sizeof *file);
  if (file == NULL)
    return 1;
  said("CREATE", nasturakh_create(session, NASTURAKH_SESSION, file, file_words));
  if (open_file() != NASTURAKH_DONE)
    return 1;
  store_all();
  find("NOETHER EMMY");
  find("NOETHER FRITZ");
  close_file();
  if (open_file() != NASTURAKH_DONE)
    return 1;
  walk();
  close_file();
  turn_file();
  free(file);
  return 0;
}
