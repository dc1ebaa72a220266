/* Breaks a list of names as the old routine did, and salvages it: a split that leaves a wrong key in an index entry, an emptied block that is on
 * no chain, a buffer that is never written. The report is printed in words, and then what the fresh file holds. */
#include "letters.h"
#include "nasturakh.h"

#include <stdio.h>
#include <stdlib.h>
#include <string.h>

enum { WPB = 20, WPR = 6, K = NAME_WORDS, CONTROL = 4, N = 12, D = (WPB - 1) / WPR, LINES = N * (1 + D) };

static const char *const names[] = {"LOVELACE ADA",   "HOPPER GRACE", "TURING ALAN", "ZUSE KONRAD",  "NOETHER EMMY", "BARTIK JEAN",
                                    "ECKERT PRESPER", "MAUCHLY JOHN", "PETER ROZSA", "BOOLE GEORGE", "HAMILTON M",   "WILKES MAURICE"};

/* Blocks that say what they are, so that a broken file can be read: the second form. */
static uint32_t session[NASTURAKH_SESSION_FORM] = {WPB, WPR, K, 0, CONTROL, N};
static uint32_t *file, *fresh;
static size_t file_words;
static uint32_t buffer[WPB], work[WPR];
static uint8_t marks[N];
static uint32_t report[3 * LINES];

static uint32_t *block(uint32_t *words, size_t b) { return words + (file_words - (N - b + 1) * (size_t)WPB); }

static void put_name(const char *name) {
  memset(work, 0, sizeof work);
  if (name_to_key(name, work) != 0)
    exit(1);
}

static uint32_t store(const char *name) {
  put_name(name);
  return nasturakh_number(nasturakh_nsert(session, NASTURAKH_SESSION_FORM, file, file_words, buffer, WPB, work, WPR));
}

static uint32_t strike(const char *name) {
  put_name(name);
  return nasturakh_number(nasturakh_dlete(session, NASTURAKH_SESSION_FORM, file, file_words, buffer, WPB, work, WPR));
}

static uint32_t open_list(uint32_t *words) {
  return nasturakh_number(nasturakh_open(session, NASTURAKH_SESSION_FORM, words, file_words, buffer, WPB, marks, N));
}

static uint32_t close_list(uint32_t *words) {
  return nasturakh_number(nasturakh_close(session, NASTURAKH_SESSION_FORM, words, file_words, buffer, WPB));
}

/* A sound list, one block of it emptied and on the chain. */
static int make_list(void) {
  session[NASTURAKH_FORM] = 2;
  if (nasturakh_number(nasturakh_create(session, NASTURAKH_SESSION_FORM, file, file_words)) != NASTURAKH_DONE)
    return 0;
  if (open_list(file) != NASTURAKH_DONE)
    return 0;
  for (size_t i = 0; i < sizeof names / sizeof *names; i++)
    if (store(names[i]) != NASTURAKH_DONE)
      return 0;
  return strike("ZUSE KONRAD") == NASTURAKH_DONE && strike("WILKES MAURICE") == NASTURAKH_DONE && close_list(file) == NASTURAKH_DONE;
}

/* What the old routine left: the first bound of the index block lowered, as by a split that took the wrong key; the chain forgotten; and one
 * more name that stays in a buffer which nobody writes. */
static void break_list(void) {
  if (open_list(file) == NASTURAKH_DONE && store("SHANNON CLAUDE") == NASTURAKH_DONE)
    puts("SHANNON CLAUDE is in the buffer, and the program ends");
  memset(session + NASTURAKH_OPEN, 0, (NASTURAKH_SESSION - NASTURAKH_OPEN) * sizeof *session);
  put_name("AAA");
  memcpy(block(file, 1) + 1, work, K * sizeof *work);
  file[1] = 0;
  printf("OPEN of the broken list answers %06o\n", (unsigned)open_list(file));
}

static void say_line(const uint32_t *line) {
  static const char *const why[] = {"",
                                    "it is not marked as a detail block",
                                    "its count is bad",
                                    "it has a word that is none",
                                    "its keys do not ascend",
                                    "its key was carried before",
                                    "there was no room"};
  if (line[1] == 0)
    printf("  block %u is passed over: %s\n", (unsigned)line[0], why[line[2]]);
  else
    printf("  record %u of block %u is not carried: %s\n", (unsigned)line[1], (unsigned)line[0], why[line[2]]);
}

static int salvage(void) {
  uint64_t told[2] = {0, 0};
  if (nasturakh_salvage(session, NASTURAKH_SESSION_FORM, file, file_words, fresh, file_words, buffer, WPB, report, 3 * LINES, told, 2) !=
      NASTURAKH_DONE)
    return 0;
  printf("salvaged with %u transfers, %u lines:\n", (unsigned)told[NASTURAKH_SALVAGE_TRANSFERS],
         (unsigned)told[NASTURAKH_SALVAGE_LINES]);
  for (size_t i = 0; i < told[NASTURAKH_SALVAGE_LINES]; i++)
    say_line(report + 3 * i);
  return 1;
}

static int list_fresh(void) {
  if (open_list(fresh) != NASTURAKH_DONE)
    return 0;
  puts("the fresh list:");
  while (nasturakh_number(nasturakh_adv(session, NASTURAKH_SESSION_FORM, fresh, file_words, buffer, WPB, work, WPR)) == NASTURAKH_DONE) {
    printf("  ");
    print_key(work);
    putchar('\n');
  }
  return close_list(fresh) == NASTURAKH_DONE;
}

int main(void) {
  file_words = nasturakh_file_words(session);
  file = (uint32_t *)malloc(file_words * sizeof *file);
  fresh = (uint32_t *)malloc(file_words * sizeof *fresh);
  if (file == NULL || fresh == NULL || !make_list())
    return 1;
  break_list();
  if (!salvage() || !list_fresh())
    return 1;
  free(file);
  free(fresh);
  return 0;
}
