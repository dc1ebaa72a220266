#include "letters.h"

#include <stdio.h>
#include <string.h>

static const char signs[] = " ABCDEFGHIJKLMNOPQRSTUVWXYZ";

/* How far up in its word the i-th letter stands. */
static unsigned shift_of(size_t i) { return 12 - 6 * (unsigned)(i % 3); }

size_t name_to_key(const char *name, uint32_t *key) {
  memset(key, 0, NAME_WORDS * sizeof *key);
  for (size_t i = 0; name[i] != 0; i++) {
    const char *sign = strchr(signs, name[i]);
    if (sign == NULL || i == NAME_LETTERS)
      return i + 1;
    key[i / 3] |= (uint32_t)(sign - signs) << shift_of(i);
  }
  return 0;
}

void say_fault(const char *name, size_t place) {
  if (place > NAME_LETTERS)
    printf("%s: longer than %d letters\n", name, NAME_LETTERS);
  else
    printf("%s: sign %u is neither a letter A to Z nor a blank\n", name, (unsigned)place);
}

void print_key(const uint32_t *key) {
  for (size_t i = 0; i < NAME_LETTERS; i++) {
    uint32_t letter = key[i / 3] >> shift_of(i) & 63;
    putchar(letter < sizeof signs - 1 ? signs[letter] : '?');
  }
}
