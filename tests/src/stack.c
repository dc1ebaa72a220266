/* How much stack each call uses: every function of the archive on a painted stack, at six sets of parameters. Prints the most bytes below the
 * caller, by call and set, and fails if a call needs more in one set than in another, if one that splits or starts a block needs MORE bytes above
 * one that does neither (the frames of the functions that split; no record is built there), or if one needs more than LIMIT.
 *
 * The archive is for x86-64, so the stack is changed by hand. A word that is reserved and never written keeps the paint and is not seen. */
#include "nasturakh.h"

#include <stdio.h>
#include <stdlib.h>
#include <string.h>

enum { LIMIT = 4096, MORE = 640, PAINTED = 65536, SETS = 6 };

enum row {
  CREATE, OPEN, CLOSE, SEEK, ADV, NSERT, NSERT_DETAIL, NSERT_INDEX, DLETE, UPDAT, XTEND, XTEND_DETAIL, XTEND_INDEX, VIEW, MOST, COPY, PUT, GET, NOTHING, ROWS
};
static const char *const names[ROWS] = {
  "CREATE", "OPEN", "CLOSE", "SEEK", "ADV", "NSERT, room", "NSERT, detail block split", "NSERT, index block split", "DLETE", "UPDAT", "XTEND, room",
  "XTEND, new detail block", "XTEND, new index block", "VIEW", "most transfers", "COPY", "PUT", "GET", "nothing"
};

/* WPB, WPR, K, and the SPACE with which XTEND starts blocks soonest */
static const uint32_t sets[SETS][4] = {{8, 3, 1, 0}, {64, 2, 1, 29}, {1792, 50, 5, 33}, {4096, 2, 1, 2045}, {4096, 2047, 1, 0}, {4096, 63, 63, 61}};
static size_t most[ROWS][SETS];

static uint64_t paint[PAINTED / 8] __attribute__((aligned(16)));
static const uint64_t colour = 0x5a17e3c4b2f09d68u;

/* the session, and what is lent to its calls */
static uint32_t session[NASTURAKH_SESSION], *file, *second, *buffer, *work;
static uint32_t plan[NASTURAKH_PLAN], list[NASTURAKH_ROW];
static uint8_t *marks;
static size_t file_words, second_words, work_words, control;
static uint64_t answer;
static enum row kind;
static int set;

static void stop(const char *why) {
  printf("stack: %s, set %d: %s, answer %llo\n", names[kind], set + 1, why, (unsigned long long)answer);
  exit(1);
}

__attribute__((noinline)) static uint64_t nothing(uint32_t *s, size_t sn, uint32_t *f, size_t fn, uint32_t *b, size_t bn, const uint32_t *w, size_t wn) {
  __asm__ volatile("" : : "r"(s), "r"(f), "r"(b), "r"(w), "r"(sn), "r"(fn), "r"(bn), "r"(wn) : "memory");
  return 0;
}

__attribute__((noinline)) static void perform(void) {
  size_t s = NASTURAKH_SESSION, f = file_words, b = session[NASTURAKH_WPB], w = work_words, m = session[NASTURAKH_N];
  switch (kind) {
  case CREATE: answer = nasturakh_create(session, s, file, f); return;
  case OPEN: answer = nasturakh_open(session, s, file, f, buffer, b, marks, m); return;
  case CLOSE: answer = nasturakh_close(session, s, file, f, buffer, b); return;
  case SEEK: answer = nasturakh_seek(session, s, file, f, buffer, b, work, w); return;
  case ADV: answer = nasturakh_adv(session, s, file, f, buffer, b, work, w); return;
  case NSERT: answer = nasturakh_nsert(session, s, file, f, buffer, b, work, w); return;
  case DLETE: answer = nasturakh_dlete(session, s, file, f, buffer, b, work, w); return;
  case UPDAT: answer = nasturakh_updat(session, s, file, f, buffer, b, work, w); return;
  case XTEND: answer = nasturakh_xtend(session, s, file, f, buffer, b, work, w); return;
  case VIEW: answer = nasturakh_view(session, s, file, f, buffer, b, 1); return;
  case MOST: answer = nasturakh_most_transfers(session, s, plan, NASTURAKH_PLAN); return;
  case COPY: answer = nasturakh_copy(session, s, file, f, second, second_words, control, marks, m); return;
  case PUT: answer = nasturakh_put(list, NASTURAKH_ROW, second, second_words, work, w); return;
  case GET: answer = nasturakh_get(list, NASTURAKH_ROW, second, second_words, work, w); return;
  default: answer = nothing(session, s, file, f, buffer, b, work, w); return;
  }
}

/* Runs one call on the painted stack, and gives the bytes that it changed. What was changed is painted again. */
static size_t used(void) {
  size_t low = 0;
  __asm__ volatile("movq %%rsp, %%rbx\n\tmovq %0, %%rsp\n\tcall *%1\n\tmovq %%rbx, %%rsp"
                   :
                   : "r"(paint + PAINTED / 8), "r"(perform)
                   : "rax", "rbx", "rcx", "rdx", "rsi", "rdi", "r8", "r9", "r10", "r11", "xmm0", "xmm1", "xmm2", "xmm3", "xmm4", "xmm5", "xmm6", "xmm7",
                     "xmm8", "xmm9", "xmm10", "xmm11", "xmm12", "xmm13", "xmm14", "xmm15", "cc", "memory");
  while (low < PAINTED / 8 && paint[low] == colour) low++;
  if (low == 0) stop("the painted stack is used up");
  for (size_t i = low; i < PAINTED / 8; i++) paint[i] = colour;
  return PAINTED - 8 * low;
}

/* A call of this kind: its most, by what it did to the blocks, and its number. */
static uint32_t call(enum row k) {
  uint32_t head = file[1], lowest = file[2];
  size_t bytes;
  kind = k;
  bytes = used();
  if ((k == NSERT || k == XTEND) && (nasturakh_number(answer) == NASTURAKH_DONE || nasturakh_number(answer) == NASTURAKH_NONE_FREE)) {
    size_t blocks = file[2] - lowest;
    if (file[1] != head) stop("a block of the free chain was taken: the blocks are not counted");
    kind = (enum row)(k + (blocks > 2 ? 2 : blocks));
  }
  if (most[kind][set] < bytes) most[kind][set] = bytes;
  return nasturakh_number(answer);
}

static void must(enum row k, uint32_t number) {
  if (call(k) != number) stop("another answer than asked for");
}

/* A record whose key is v and zeros. */
static void record(uint32_t v) {
  for (size_t i = 0; i < work_words; i++) work[i] = i == 0 ? v : 0;
}

static void *room(size_t bytes) {
  void *p = calloc(bytes, 1);
  if (p == NULL) stop("no memory");
  return p;
}

/* A session of this set, its file new. */
static void begin(uint32_t space, uint32_t blocks) {
  static const uint32_t none[NASTURAKH_SESSION];
  memcpy(session, none, sizeof session);
  memcpy(session, sets[set], 3 * sizeof(uint32_t));
  session[NASTURAKH_SPACE] = space;
  session[NASTURAKH_CONTROL] = 4;
  session[NASTURAKH_N] = blocks;
  file_words = second_words = nasturakh_file_words(session);
  control = 4;
  work_words = session[NASTURAKH_WPR];
  file = room(file_words * sizeof(uint32_t));
  second = room(second_words * sizeof(uint32_t));
  buffer = room(session[NASTURAKH_WPB] * sizeof(uint32_t));
  work = room(session[NASTURAKH_WPB] * sizeof(uint32_t));
  marks = room(blocks);
}

static void end(void) {
  free(file);
  free(second);
  free(buffer);
  free(work);
  free(marks);
}

/* The words of block b of the file. */
static uint32_t *block(uint32_t b) { return file + file_words - (size_t)(session[NASTURAKH_N] - b + 1) * session[NASTURAKH_WPB]; }

static void ones(uint32_t *key) {
  for (uint32_t i = 0; i < session[NASTURAKH_K]; i++) key[i] = 262143;
}

/* A new session on a file with one index block of so many entries: detail block `full` of them is full, the others have a record each. Its bound
 * is above its keys. */
static void lay(uint32_t entries, uint32_t full) {
  uint32_t wpr = session[NASTURAKH_WPR], k = session[NASTURAKH_K], d = (session[NASTURAKH_WPB] - 1) / wpr;
  session[NASTURAKH_OPEN] = session[NASTURAKH_CURRENT] = session[NASTURAKH_FLAG] = session[NASTURAKH_PLACED] = 0;
  must(CREATE, NASTURAKH_DONE);
  file[2] = entries + 2;
  block(1)[0] = entries;
  for (uint32_t e = 0; e < entries; e++) {
    memset(block(e + 2), 0, session[NASTURAKH_WPB] * sizeof(uint32_t));
    uint32_t *entry = block(1) + 1 + e * (k + 1), *rows = block(e + 2), bound = e < full ? e + 1 : 2 * d + 100 + e;
    rows[0] = e == full ? d : 1;
    for (uint32_t i = 0; i < rows[0]; i++) rows[1 + i * wpr] = e == full ? full + 2 * (i + 1) : bound;
    entry[0] = bound;
    entry[k] = e + 2;
    if (e + 1 == entries) {
      ones(entry);
      ones(rows + 1);
    }
  }
}

/* NSERT into the full block: before its first record, on both sides of its middle, and behind its last. */
static void split(uint32_t entries) {
  uint32_t d = (session[NASTURAKH_WPB] - 1) / session[NASTURAKH_WPR];
  const uint32_t places[] = {0, d / 2, d / 2 + 1, d};
  for (size_t i = 0; i < sizeof places / sizeof *places; i++) {
    lay(entries, 0);
    must(OPEN, NASTURAKH_DONE);
    record(2 * places[i] + 1);
    must(NSERT, NASTURAKH_DONE);
    must(CLOSE, NASTURAKH_DONE);
  }
}

static void splits(void) {
  uint32_t most_entries = (sets[set][0] - 1) / (sets[set][2] + 1);
  begin(0, most_entries + 4);
  split(most_entries - 1);
  split(most_entries);
  end();
}

/* XTEND above all that is left, and not above the bound before the last block: the block before that is full, and then has room. */
static void behind(uint32_t entries) {
  uint32_t highest = entries - 2 + 2 * ((session[NASTURAKH_WPB] - 1) / session[NASTURAKH_WPR]);
  for (int taken = 0; taken <= 1; taken++) {
    lay(entries, entries - 2);
    must(OPEN, NASTURAKH_DONE);
    record(highest);
    if (taken) must(DLETE, NASTURAKH_DONE);
    record(highest + 1);
    must(XTEND, NASTURAKH_DONE);
    must(CLOSE, NASTURAKH_DONE);
  }
}

static void struck(void) {
  uint32_t most_entries = (sets[set][0] - 1) / (sets[set][2] + 1);
  begin(0, most_entries + 4);
  behind(most_entries - 1);
  behind(most_entries);
  end();
}

/* Every call, in a session that fills a file until XTEND starts a second index block, and then takes all records out. */
static void calls(void) {
  uint32_t entries = (sets[set][0] - 1) / (sets[set][2] + 1) - sets[set][3], last = 0;
  begin(sets[set][3], entries + 60);
  must(CREATE, NASTURAKH_DONE);
  must(OPEN, NASTURAKH_DONE);
  while (most[XTEND_INDEX][set] == 0) {
    record(last += 10);
    must(XTEND, NASTURAKH_DONE);
  }
  for (uint32_t v = 5; v <= last; v += 35) {
    record(v);
    call(SEEK);
    record(v);
    call(UPDAT);
    call(ADV);
  }
  for (uint32_t v = 5; v <= 105; v += 10) {
    record(v);
    must(NSERT, NASTURAKH_DONE);
    record(v);
    must(NSERT, NASTURAKH_NOT_FOUND);
    call(VIEW);
  }
  must(CLOSE, NASTURAKH_DONE);
  must(COPY, NASTURAKH_DONE);
  must(OPEN, NASTURAKH_DONE);
  for (uint32_t v = 0; v <= last + 105; v += 5) {
    record(v);
    call(DLETE);
  }
  record(0);
  must(ADV, NASTURAKH_AT_END);
  must(CLOSE, NASTURAKH_DONE);
  call(MOST);
  end();
}

/* PUT and GET of records of both kinds. */
static void lists(void) {
  begin(0, 4);
  second_words = 4 * (size_t)session[NASTURAKH_WPB];
  for (uint32_t variable = 0; variable <= 1; variable++) {
    uint32_t wpb = session[NASTURAKH_WPB], length = wpb / 2 - 1;
    uint32_t row[NASTURAKH_ROW] = {wpb, 0, variable, length, 0, 0, 0};
    work_words = variable ? wpb : length;
    memcpy(list, row, sizeof list);
    record(length);
    for (int i = 0; i < 4; i++) must(PUT, NASTURAKH_DONE);
    row[NASTURAKH_ROW_LEFT] = 4;
    memcpy(list, row, sizeof list);
    for (int i = 0; i < 4; i++) must(GET, NASTURAKH_DONE);
    must(GET, NASTURAKH_AT_END);
  }
  end();
}

/* Tells whether this row passes, and prints it. */
static int passes(enum row k) {
  int good = 1;
  enum row plain = k == NSERT_DETAIL || k == NSERT_INDEX ? NSERT : k == XTEND_DETAIL || k == XTEND_INDEX ? XTEND : k;
  printf("| %s |", names[k]);
  for (int i = 0; i < SETS; i++) {
    size_t bytes = most[k][i] - most[NOTHING][i];
    printf(" %zu |", bytes);
    good = good && most[k][i] != 0 && most[k][i] == most[k][0] && bytes <= LIMIT && most[k][i] < most[plain][i] + MORE;
  }
  puts(good ? "" : " FAILED");
  return good;
}

int main(void) {
  int good = 1;
  for (size_t i = 0; i < PAINTED / 8; i++) paint[i] = colour;
  /* once before, not measured: at its first call a function of the C library may be looked up, on the same stack */
  set = 0;
  splits();
  calls();
  struck();
  lists();
  memset(most, 0, sizeof most);
  for (set = 0; set < SETS; set++) {
    splits();
    calls();
    struck();
    lists();
    kind = NOTHING;
    most[NOTHING][set] = used();
  }
  printf("| bytes of stack |");
  for (int i = 0; i < SETS; i++) printf(" WPB %u WPR %u K %u |", sets[i][0], sets[i][1], sets[i][2]);
  puts("\n|---|---|---|---|---|---|---|");
  for (int k = 0; k < NOTHING; k++) good &= passes((enum row)k);
  return good ? 0 : 1;
}
