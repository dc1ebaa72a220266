/* Serves the archive's functions to the comparison, where that runs on a machine which can't link them. A call comes on standard input: its
 * kind, a block, the lengths of five slices, then their words. The answer and the five slices as they are left go to standard output. */
#include "nasturakh.h"

#include <stdio.h>
#include <stdlib.h>

enum {
  CREATE, OPEN, CLOSE, SEEK, ADV, NSERT, DLETE, UPDAT, XTEND, VIEW, MOST, COPY, PUT, GET, BLOCKS, SECTIONS, TRAY,
  ENTER, ASK, HOLD, FREE, ROMANISE, TURN, SALVAGE
};
enum { OF_SESSION, OF_FILE, OF_BUFFER, OF_WORKSPACE, OF_MARKS, SLICES };

struct call {
  uint64_t kind;
  uint64_t block;
  uint64_t lengths[SLICES];
};

static size_t bytes_of(const struct call *c, int i) { return c->lengths[i] * (i == OF_MARKS ? 1 : sizeof(uint32_t)); }

static uint64_t on_record(const struct call *c, uint32_t *s, uint32_t *f, uint32_t *b, uint32_t *w) {
  const uint64_t *n = c->lengths;
  switch (c->kind) {
  case SEEK:
    return nasturakh_seek(s, n[OF_SESSION], f, n[OF_FILE], b, n[OF_BUFFER], w, n[OF_WORKSPACE]);
  case ADV:
    return nasturakh_adv(s, n[OF_SESSION], f, n[OF_FILE], b, n[OF_BUFFER], w, n[OF_WORKSPACE]);
  case NSERT:
    return nasturakh_nsert(s, n[OF_SESSION], f, n[OF_FILE], b, n[OF_BUFFER], w, n[OF_WORKSPACE]);
  case DLETE:
    return nasturakh_dlete(s, n[OF_SESSION], f, n[OF_FILE], b, n[OF_BUFFER], w, n[OF_WORKSPACE]);
  case UPDAT:
    return nasturakh_updat(s, n[OF_SESSION], f, n[OF_FILE], b, n[OF_BUFFER], w, n[OF_WORKSPACE]);
  case ENTER:
    return nasturakh_enter(s, n[OF_SESSION], f, n[OF_FILE], b, n[OF_BUFFER], w, n[OF_WORKSPACE]);
  case ASK:
    return nasturakh_ask(s, n[OF_SESSION], f, n[OF_FILE], b, n[OF_BUFFER], w, n[OF_WORKSPACE]);
  case HOLD:
    return nasturakh_hold(s, n[OF_SESSION], f, n[OF_FILE], b, n[OF_BUFFER], w, n[OF_WORKSPACE]);
  case FREE:
    return nasturakh_free_name(s, n[OF_SESSION], f, n[OF_FILE], b, n[OF_BUFFER], w, n[OF_WORKSPACE]);
  default:
    return nasturakh_xtend(s, n[OF_SESSION], f, n[OF_FILE], b, n[OF_BUFFER], w, n[OF_WORKSPACE]);
  }
}

static uint64_t perform(const struct call *c, void **slices) {
  const uint64_t *n = c->lengths;
  uint32_t *s = slices[OF_SESSION], *f = slices[OF_FILE], *b = slices[OF_BUFFER];
  switch (c->kind) {
  case CREATE:
    return nasturakh_create(s, n[OF_SESSION], f, n[OF_FILE]);
  case OPEN:
    return nasturakh_open(s, n[OF_SESSION], f, n[OF_FILE], b, n[OF_BUFFER], slices[OF_MARKS], n[OF_MARKS]);
  case CLOSE:
    return nasturakh_close(s, n[OF_SESSION], f, n[OF_FILE], b, n[OF_BUFFER]);
  case VIEW:
    return nasturakh_view(s, n[OF_SESSION], f, n[OF_FILE], b, n[OF_BUFFER], c->block);
  case MOST: /* the plan comes as the workspace */
    return nasturakh_most_transfers(s, n[OF_SESSION], slices[OF_WORKSPACE], n[OF_WORKSPACE]);
  case BLOCKS: /* the names come as the block */
    return nasturakh_most_blocks(s, n[OF_SESSION], (uint32_t)c->block);
  case SECTIONS:
    return nasturakh_most_sections(s, n[OF_SESSION], (uint32_t)c->block);
  case COPY: /* the second file comes as the buffer, the new CONTROL as the block */
    return nasturakh_copy(s, n[OF_SESSION], f, n[OF_FILE], b, n[OF_BUFFER], c->block, slices[OF_MARKS], n[OF_MARKS]);
  case PUT: /* the row comes as the session */
    return nasturakh_put(s, n[OF_SESSION], f, n[OF_FILE], slices[OF_WORKSPACE], n[OF_WORKSPACE]);
  case GET:
    return nasturakh_get(s, n[OF_SESSION], f, n[OF_FILE], slices[OF_WORKSPACE], n[OF_WORKSPACE]);
  case TRAY: /* the tray comes as the workspace, what is told as the marks */
    return nasturakh_nsert_tray(s, n[OF_SESSION], f, n[OF_FILE], b, n[OF_BUFFER], slices[OF_WORKSPACE], n[OF_WORKSPACE],
                                slices[OF_MARKS], n[OF_MARKS] / sizeof(uint64_t));
  case ROMANISE: /* the spelling comes as the marks, four bytes a word */
    return nasturakh_romanise(s, n[OF_SESSION], f, n[OF_FILE], b, n[OF_BUFFER], slices[OF_WORKSPACE], n[OF_WORKSPACE], slices[OF_MARKS],
                              n[OF_MARKS] / sizeof(uint32_t));
  case TURN:
    return nasturakh_turn(s, n[OF_SESSION], f, n[OF_FILE], slices[OF_MARKS], n[OF_MARKS]);
  case SALVAGE: /* the fresh file comes as the file, the copy and then the report as the workspace, the copy's length as the block */
    return nasturakh_salvage(s, n[OF_SESSION], slices[OF_WORKSPACE], c->block, f, n[OF_FILE], b, n[OF_BUFFER],
                             (uint32_t *)slices[OF_WORKSPACE] + c->block, n[OF_WORKSPACE] - c->block, slices[OF_MARKS],
                             n[OF_MARKS] / sizeof(uint64_t));
  default:
    return on_record(c, s, f, b, slices[OF_WORKSPACE]);
  }
}

/* One call; 0 when there is none left. */
static int serve(void) {
  struct call c;
  void *slices[SLICES];
  if (fread(&c, sizeof c, 1, stdin) != 1)
    return 0;
  for (int i = 0; i < SLICES; i++) {
    slices[i] = malloc(bytes_of(&c, i) + 1);
    if (slices[i] == NULL || fread(slices[i], 1, bytes_of(&c, i), stdin) != bytes_of(&c, i))
      exit(1);
  }
  uint64_t answer = perform(&c, slices);
  fwrite(&answer, sizeof answer, 1, stdout);
  for (int i = 0; i < SLICES; i++) {
    fwrite(slices[i], 1, bytes_of(&c, i), stdout);
    free(slices[i]);
  }
  return fflush(stdout) == 0;
}

int main(void) {
  while (serve())
    ;
  return 0;
}
