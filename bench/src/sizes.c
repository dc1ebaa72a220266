/* What a list costs by its sizes: loads so many names in order by XTEND, seeks as many at random, puts in a tenth more by NSERT at random,
 * strikes as many off, walks the whole list, and counts transfers and new blocks. The tables of docs/SIZES.md. Every run counts the same. */
#include "nasturakh.h"

#include <stdio.h>
#include <stdlib.h>
#include <string.h>

enum { WPR = 50, K = 5, MOST_WPB = 4096 };
enum { XTEND, SEEK, NSERT, DLETE, ADV, KINDS };

/* A list, and what it is lent. */
struct list {
  uint32_t names, grown, wpb, space, control, n;
  uint32_t session[NASTURAKH_SESSION];
  uint32_t *file;
  size_t file_words;
  uint8_t *marks;
  uint32_t *order; /* the numbers of all names: first those that NSERT brings */
  uint32_t *late;  /* 1 for those */
  uint64_t transfers[KINDS], details[KINDS], indexes[KINDS];
};

static uint32_t buffer[MOST_WPB];
static uint32_t work[WPR];

/* Capacities, and how many records a split leaves and takes. */
static uint32_t D(const struct list *l) { return (l->wpb - 1) / WPR; }
static uint32_t I(const struct list *l) { return (l->wpb - 1) / (K + 1); }
static uint32_t hD(const struct list *l) { return (D(l) + 1) / 2; }
static uint32_t hI(const struct list *l) { return (I(l) + 1) / 2; }
static uint32_t FD(const struct list *l) { return D(l) - l->space; }
static uint32_t FI(const struct list *l) { return I(l) - l->space; }

static uint32_t least(uint32_t a, uint32_t b) { return a < b ? a : b; }

/* Blocks and sections enough for the load and then the names that NSERT brings, in any order. A block that XTEND filled splits at the
 * (SPACE+1)-th name put into it, a half at the hD-th; and by the session formula hD*S <= M, hI*s <= S+X, FI*x <= S+X. */
static void choose(struct list *l) {
  uint32_t started = l->names / FD(l);
  uint32_t splits = least(l->grown / least(l->space + 1, hD(l)), (l->names + l->grown) / hD(l));
  uint32_t indexes = (started + splits) / hI(l) + (started + splits) / FI(l);
  l->control = 1 + indexes;
  l->n = 2 + started + splits + indexes;
}

/* The session formula's bound for the whole plan: `planned` in crates/demands/specs/Planned.antt. */
static uint64_t most_transfers(const struct list *l) {
  uint64_t records = (uint64_t)l->names + l->grown;
  uint64_t details = records / hD(l) + records / FD(l);
  uint64_t indexes = details / hI(l) + details / FI(l);
  uint64_t shares = 3 * ((uint64_t)l->names + l->grown) + 5 * ((uint64_t)l->names + 1) + 6 * ((uint64_t)l->grown + l->names) + KINDS + 1;
  return shares + 4 * details + indexes;
}

static void check(int good, const char *what) {
  if (!good) {
    fprintf(stderr, "sizes: %s\n", what);
    exit(1);
  }
}

/* splitmix64; each list begins with the same seed. */
static uint64_t drawn;

static uint32_t below(uint32_t n) {
  uint64_t z = drawn += 0x9e3779b97f4a7c15u;
  z = (z ^ (z >> 30)) * 0xbf58476d1ce4e5b9u;
  z = (z ^ (z >> 27)) * 0x94d049bb133111ebu;
  return (uint32_t)((z ^ (z >> 31)) % n);
}

static void shuffle(uint32_t *numbers, uint32_t count) {
  for (uint32_t i = count - 1; i > 0; i--) {
    uint32_t j = below(i + 1), kept = numbers[i];
    numbers[i] = numbers[j];
    numbers[j] = kept;
  }
}

static void make(struct list *l) {
  uint32_t all = l->names + l->grown;
  drawn = 1969;
  choose(l);
  uint32_t six[6] = {l->wpb, WPR, K, l->space, l->control, l->n};
  memcpy(l->session, six, sizeof six);
  l->file_words = nasturakh_file_words(l->session);
  l->file = malloc(l->file_words * sizeof *l->file);
  l->marks = calloc(l->n, 1);
  l->order = malloc(all * sizeof *l->order);
  l->late = calloc(all, sizeof *l->late);
  check(l->file != NULL && l->marks != NULL && l->order != NULL && l->late != NULL, "not enough memory");
  for (uint32_t i = 0; i < all; i++)
    l->order[i] = i;
  shuffle(l->order, all);
  for (uint32_t i = 0; i < l->grown; i++)
    l->late[l->order[i]] = 1;
  check(nasturakh_number(nasturakh_create(l->session, NASTURAKH_SESSION, l->file, l->file_words)) == NASTURAKH_DONE, "CREATE");
}

/* One call with the name of that number, its transfers counted. */
static uint32_t call(struct list *l, int kind, uint32_t number) {
  static uint64_t (*const keyed[])(uint32_t *, size_t, uint32_t *, size_t, uint32_t *, size_t, const uint32_t *, size_t) = {
      [XTEND] = nasturakh_xtend, [NSERT] = nasturakh_nsert, [DLETE] = nasturakh_dlete};
  uint64_t answer;
  work[K - 2] = number >> 18;
  work[K - 1] = number & 262143;
  if (kind == SEEK)
    answer = nasturakh_seek(l->session, NASTURAKH_SESSION, l->file, l->file_words, buffer, l->wpb, work, WPR);
  else if (kind == ADV)
    answer = nasturakh_adv(l->session, NASTURAKH_SESSION, l->file, l->file_words, buffer, l->wpb, work, WPR);
  else
    answer = keyed[kind](l->session, NASTURAKH_SESSION, l->file, l->file_words, buffer, l->wpb, work, WPR);
  l->transfers[kind] += nasturakh_transfers(answer);
  return nasturakh_number(answer);
}

/* All calls of a kind. */
static void calls(struct list *l, int kind) {
  uint32_t all = l->names + l->grown, walked = 0;
  for (uint32_t i = 0; kind == XTEND && i < all; i++)
    check(l->late[i] || call(l, kind, i) == NASTURAKH_DONE, "XTEND");
  for (uint32_t i = 0; kind == SEEK && i < l->names; i++)
    check(call(l, kind, l->order[l->grown + below(l->names)]) == NASTURAKH_DONE, "SEEK");
  for (uint32_t i = 0; kind == NSERT && i < l->grown; i++)
    check(call(l, kind, l->order[i]) == NASTURAKH_DONE, "NSERT");
  if (kind == DLETE)
    shuffle(l->order, all);
  for (uint32_t i = 0; kind == DLETE && i < l->grown; i++)
    check(call(l, kind, l->order[i]) == NASTURAKH_DONE, "DLETE");
  while (kind == ADV && call(l, kind, 0) == NASTURAKH_DONE)
    walked++;
  check(kind != ADV || walked == l->names, "ADV");
}

static void open_list(struct list *l) {
  uint64_t answer = nasturakh_open(l->session, NASTURAKH_SESSION, l->file, l->file_words, buffer, l->wpb, l->marks, l->n);
  check(nasturakh_number(answer) == NASTURAKH_DONE, "OPEN");
}

static uint32_t close_list(struct list *l) {
  uint64_t answer = nasturakh_close(l->session, NASTURAKH_SESSION, l->file, l->file_words, buffer, l->wpb);
  check(nasturakh_number(answer) == NASTURAKH_DONE, "CLOSE");
  return nasturakh_transfers(answer);
}

/* Detail and index blocks in use, by OPEN's marks. */
static void count_blocks(struct list *l, int kind) {
  uint64_t used = 0;
  for (uint32_t b = 0; b < l->n; b++)
    used += l->marks[b] == 1;
  l->indexes[kind] = l->file[0];
  l->details[kind] = used - l->file[0];
}

/* The whole plan: CREATE, OPEN, and for each kind its calls, CLOSE and OPEN, which shows the blocks in use. */
static void play(struct list *l) {
  memset(work, 0, sizeof work);
  make(l);
  open_list(l);
  for (int kind = 0; kind < KINDS; kind++) {
    calls(l, kind);
    l->transfers[kind] += close_list(l);
    open_list(l);
    count_blocks(l, kind);
  }
  close_list(l);
  free(l->file);
  free(l->marks);
  free(l->order);
  free(l->late);
}

static void print_size(uint32_t names, uint32_t wpb, uint32_t space) {
  struct list l = {.names = names, .grown = names / 10, .wpb = wpb, .space = space};
  play(&l);
  uint64_t sum = 0;
  for (int kind = 0; kind < KINDS; kind++)
    sum += l.transfers[kind];
  check(sum <= most_transfers(&l), "the bound is broken");
  printf("| %u | %u | %u | %u | %u | %u | %u | %.1f | %llu | %llu | %llu |\n", names, wpb, D(&l), I(&l), space, l.control, l.n, (double)l.file_words * 4e-6,
         (unsigned long long)(l.details[NSERT] + l.indexes[NSERT]), (unsigned long long)most_transfers(&l), (unsigned long long)sum);
}

static void print_space(uint32_t names, uint32_t space) {
  struct list l = {.names = names, .grown = names / 10, .wpb = 1792, .space = space};
  play(&l);
  printf("| %u | %llu | %llu | %llu | %llu | %llu | %.2f | %llu |\n", space, (unsigned long long)(l.details[XTEND] + l.indexes[XTEND]),
         (unsigned long long)l.transfers[XTEND], (unsigned long long)(l.details[NSERT] - l.details[XTEND]),
         (unsigned long long)(l.indexes[NSERT] - l.indexes[XTEND]), (unsigned long long)l.transfers[NSERT],
         (double)l.transfers[NSERT] / l.grown, (unsigned long long)(l.details[NSERT] + l.indexes[NSERT]));
}

int main(void) {
  puts("| names | WPB | D | I | SPACE | CONTROL | N | file, MB | blocks in use | most transfers | counted |");
  puts("|---|---|---|---|---|---|---|---|---|---|---|");
  print_size(1000, 512, 2);
  print_size(60000, 1792, 5);
  print_size(1000000, 3584, 10);
  puts("\n| SPACE | blocks loaded | transfers of the load | detail splits | index splits | transfers of the NSERTs | per NSERT | blocks then |");
  puts("|---|---|---|---|---|---|---|---|");
  print_space(60000, 0);
  print_space(60000, 2);
  print_space(60000, 5);
  print_space(60000, 10);
  return 0;
}
