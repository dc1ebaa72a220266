/* A sheet of a map: its 3,000 names are entered as they stand in the source, romanised once each, some held back, and the sheet is listed from
 * the register. A second romanising of any of them is refused by 030007, before and after the file is closed. */
#include "letters.h"
#include "nasturakh.h"

#include <stdio.h>
#include <stdlib.h>
#include <string.h>

/* A name, its state, and a spelling as long as a name. */
enum { K = NAME_WORDS, WPR = 2 * NAME_WORDS + 1, WPB = 256, CONTROL = 20, N = 500, NAMES = 3000 };

static uint32_t session[NASTURAKH_SESSION] = {WPB, WPR, K, 0, CONTROL, N};
static uint32_t buffer[WPB];
static uint32_t work[WPR];
static uint8_t marks[N];
static uint32_t *file;
static size_t words;

/* The i-th name of the sheet, in no order of its letters, and how it is to be romanised: every name has one of either. */
static void write_name(unsigned i, const char *ending, uint32_t *key) {
  static const char *const first[] = {"AN", "BAL", "DER", "GAN", "KAR", "LEM", "MER", "NOR", "SAR", "TEL"};
  static const char *const middle[] = {"A", "EBI", "ILO", "ORU", "UMA"};
  static const char *const last[] = {"BAD", "DEH", "GAH", "HAN", "KAND", "STAN"};
  char name[NAME_LETTERS + 1];
  unsigned j = i * 7 % 300, k = i / 300;
  snprintf(name, sizeof name, "%s%s%s%c%s", first[j % 10], middle[j / 10 % 5], last[j / 50], 'A' + (char)k, ending);
  if (name_to_key(name, key) != 0)
    exit(1);
}

static uint32_t number_of(uint64_t answer) { return nasturakh_number(answer); }

static uint32_t entered(unsigned i) {
  write_name(i, "", work);
  return number_of(nasturakh_enter(session, NASTURAKH_SESSION, file, words, buffer, WPB, work, WPR));
}

static uint32_t romanised(unsigned i) {
  uint32_t spelling[NAME_WORDS];
  write_name(i, "", work);
  write_name(i, " R", spelling);
  return number_of(nasturakh_romanise(session, NASTURAKH_SESSION, file, words, buffer, WPB, work, WPR, spelling, NAME_WORDS));
}

static uint32_t held(unsigned i) {
  write_name(i, "", work);
  return number_of(nasturakh_hold(session, NASTURAKH_SESSION, file, words, buffer, WPB, work, WPR));
}

static uint32_t freed(unsigned i) {
  write_name(i, "", work);
  return number_of(nasturakh_free_name(session, NASTURAKH_SESSION, file, words, buffer, WPB, work, WPR));
}

/* Does one thing to every name, or to every so many, and prints how often it was answered with the number. */
static void all(const char *what, uint32_t (*call)(unsigned), unsigned step, uint32_t number) {
  unsigned met = 0, of = 0;
  for (unsigned i = 0; i < NAMES; i += step, of++)
    met += call(i) == number;
  printf("%s: %u of %u answered %06o\n", what, met, of, (unsigned)number);
}

static void open_file(void) {
  if (number_of(nasturakh_open(session, NASTURAKH_SESSION, file, words, buffer, WPB, marks, N)) != NASTURAKH_DONE)
    exit(1);
}

/* The sheet in the order of its names: the first three, how many there are in each state, and whether each stands behind the one before. */
static void list_names(void) {
  unsigned states[3] = {0, 0, 0}, count = 0;
  while (number_of(nasturakh_adv(session, NASTURAKH_SESSION, file, words, buffer, WPB, work, WPR)) == NASTURAKH_DONE) {
    if (work[K] <= NASTURAKH_HELD)
      states[work[K]]++;
    if (count++ < 3) {
      print_key(work);
      printf(" %u ", (unsigned)work[K]);
      print_key(work + K + 1);
      putchar('\n');
    }
  }
  printf("%u names: %u raw, %u romanised, %u held\n", count, states[NASTURAKH_RAW], states[NASTURAKH_ROMANISED], states[NASTURAKH_HELD]);
}

int main(void) {
  words = nasturakh_file_words(session);
  file = (uint32_t *)malloc(words * sizeof *file);
  if (file == NULL)
    return 1;
  nasturakh_create(session, NASTURAKH_SESSION, file, words);
  open_file();
  all("entered", entered, 1, NASTURAKH_DONE);
  all("entered again", entered, 1, NASTURAKH_NOT_FOUND);
  all("held while raw", held, 50, NASTURAKH_NOT_ALLOWED);
  all("romanised", romanised, 1, NASTURAKH_DONE);
  all("held", held, 7, NASTURAKH_DONE);
  all("freed", freed, 21, NASTURAKH_DONE);
  all("romanised again", romanised, 1, NASTURAKH_NOT_ALLOWED);
  nasturakh_close(session, NASTURAKH_SESSION, file, words, buffer, WPB);
  open_file();
  all("romanised again, the file closed and opened", romanised, 1, NASTURAKH_NOT_ALLOWED);
  nasturakh_close(session, NASTURAKH_SESSION, file, words, buffer, WPB);
  open_file();
  list_names();
  nasturakh_close(session, NASTURAKH_SESSION, file, words, buffer, WPB);
  free(file);
  return 0;
}
