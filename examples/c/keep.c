/* Keeps a directory of names on disk between runs.
 *
 *   keep FILE put NAME YEAR | keep FILE find NAME | keep FILE strike NAME | keep FILE list
 *
 * The file is mapped into memory, and what a run changed is put in its place as a whole (stored.h). The parameters are not in the file:
 * FILE.parameters has them, as the line that a printed session begins with. */
#define _POSIX_C_SOURCE 200809L
#include "letters.h"
#include "nasturakh.h"
#include "stored.h"

#include <inttypes.h>
#include <stdio.h>
#include <stdlib.h>
#include <string.h>
#include <unistd.h>

enum { WPB = 64, WPR = NAME_WORDS + 1, CONTROL = 4, N = 20 };

/* A session with all that it is lent. */
static uint32_t session[NASTURAKH_SESSION] = {WPB, WPR, NAME_WORDS, 0, CONTROL, N};
static uint32_t *file;
static size_t file_words;
static uint32_t buffer[WPB];
static uint32_t work[WPR];
static uint8_t marks[N];

/* A new file, its parameters first: it is never there without them. */
static void make_file(const char *path) {
  char line[80];
  int length = snprintf(line, sizeof line, "%d %d %d %d %d %d\n", WPB, WPR, NAME_WORDS, 0, CONTROL, N);
  write_synced(beside(path, ".parameters"), line, (size_t)length);
  file = (uint32_t *)calloc(file_words, sizeof *file);
  if (file == NULL || nasturakh_number(nasturakh_create(session, NASTURAKH_SESSION, file, file_words)) != NASTURAKH_DONE)
    fail(path, "can't be made");
  put_in_place(path, file, file_words);
  free(file);
}

/* The parameters that the file was made with must be this program's. */
static void check_parameters(const char *path) {
  uint32_t six[6];
  int count = 0;
  FILE *in = fopen(beside(path, ".parameters"), "r");
  while (in != NULL && count < 6 && fscanf(in, "%" SCNu32, &six[count]) == 1)
    count++;
  if (in == NULL || fclose(in) != 0 || count < 6 || memcmp(six, session, sizeof six) != 0)
    fail(beside(path, ".parameters"), "has not the parameters of this program");
}

static void open_file(const char *path) {
  file_words = nasturakh_file_words(session);
  if (access(path, F_OK) != 0)
    make_file(path);
  check_parameters(path);
  file = map_words(path, file_words);
  if (nasturakh_number(nasturakh_open(session, NASTURAKH_SESSION, file, file_words, buffer, WPB, marks, N)) != NASTURAKH_DONE)
    fail(path, "no good file: OPEN answers 070003");
}

static void close_file(const char *path, int changed) {
  if (nasturakh_number(nasturakh_close(session, NASTURAKH_SESSION, file, file_words, buffer, WPB)) != NASTURAKH_DONE)
    fail(path, "can't be closed");
  if (changed)
    put_in_place(path, file, file_words);
}

static void put_name(const char *name) {
  size_t wrong = name_to_key(name, work);
  if (wrong != 0) {
    say_fault(name, wrong);
    exit(1);
  }
}

/* A year is a word: a number 0 to 262143. */
static void put_year(const char *text) {
  char *end;
  unsigned long year = strtoul(text, &end, 10);
  if (*text < '0' || *text > '9' || *end != 0 || year > 262143)
    fail(text, "no number from 0 to 262143");
  work[NAME_WORDS] = (uint32_t)year;
}

static void print_record(void) {
  print_key(work);
  printf(" %u\n", (unsigned)work[NAME_WORDS]);
}

static uint32_t call(const char *word) {
  if (strcmp(word, "put") == 0)
    return nasturakh_number(nasturakh_nsert(session, NASTURAKH_SESSION, file, file_words, buffer, WPB, work, WPR));
  if (strcmp(word, "strike") == 0)
    return nasturakh_number(nasturakh_dlete(session, NASTURAKH_SESSION, file, file_words, buffer, WPB, work, WPR));
  if (strcmp(word, "find") == 0)
    return nasturakh_number(nasturakh_seek(session, NASTURAKH_SESSION, file, file_words, buffer, WPB, work, WPR));
  return nasturakh_number(nasturakh_adv(session, NASTURAKH_SESSION, file, file_words, buffer, WPB, work, WPR));
}

static void list_all(void) {
  while (call("list") == NASTURAKH_DONE)
    print_record();
}

/* One call with a name, and whether it did what it was asked for. */
static int perform(const char *word, const char *name) {
  uint32_t number = call(word);
  int done = number == NASTURAKH_DONE || number == NASTURAKH_NONE_FREE;
  if (done && strcmp(word, "find") == 0)
    print_record();
  else if (number == NASTURAKH_NOT_FOUND)
    printf("%s: %s\n", name, strcmp(word, "put") == 0 ? "there already" : "not there");
  else if (!done)
    printf("%s: refused with %06o\n", name, (unsigned)number);
  return done;
}

static int is_call(int words, char **word) {
  if (words == 5)
    return strcmp(word[2], "put") == 0;
  if (words == 4)
    return strcmp(word[2], "find") == 0 || strcmp(word[2], "strike") == 0;
  return words == 3 && strcmp(word[2], "list") == 0;
}

int main(int words, char **word) {
  int done = 1;
  if (!is_call(words, word))
    fail("usage", "keep FILE put NAME YEAR | keep FILE find NAME | keep FILE strike NAME | keep FILE list");
  if (words > 3)
    put_name(word[3]);
  if (words > 4)
    put_year(word[4]);
  open_file(word[1]);
  if (words == 3)
    list_all();
  else
    done = perform(word[2], word[3]);
  close_file(word[1], done && words > 3 && strcmp(word[2], "find") != 0);
  return done ? 0 : 1;
}
