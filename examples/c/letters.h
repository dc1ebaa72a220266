/* Names as keys: three letters a word, six bits each, and a blank is 0, so that names sort as in a directory. */
#ifndef LETTERS_H
#define LETTERS_H

#include <stddef.h>
#include <stdint.h>

enum { NAME_WORDS = 5, NAME_LETTERS = 3 * NAME_WORDS };

/* Puts a name into NAME_WORDS words and answers 0. A name that has another sign than A to Z and blank, or more than NAME_LETTERS signs, is no
 * key: the answer is then the place of the first sign that does not fit, counted from 1. Nothing is cut, so names that differ have keys that
 * differ; only blanks at the end of a name do not count. */
size_t name_to_key(const char *name, uint32_t *key);

/* Prints what is wrong at that place. */
void say_fault(const char *name, size_t place);

/* Prints the name that a key stands for, with blanks behind. */
void print_key(const uint32_t *key);

#endif
