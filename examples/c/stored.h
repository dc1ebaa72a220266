/* Words on disk, in the machine's byte order: mapped into memory, and put in place as a whole. */
#ifndef STORED_H
#define STORED_H

#include <stddef.h>
#include <stdint.h>

/* Ends the run, and says why. */
void fail(const char *what, const char *why);

/* The path with an ending behind it; the next call overwrites it. */
const char *beside(const char *path, const char *ending);

/* Writes bytes to a file, new or old, and waits until the disk has them. */
void write_synced(const char *path, const void *bytes, size_t length);

/* Puts words in the file's place: a copy beside it, synced, renamed over it, and the rename synced. So at every moment the file is the old one
 * or the new one, and whole. */
void put_in_place(const char *path, const uint32_t *words, size_t count);

/* Maps a file of exactly so many words, privately: what is changed is seen by this run alone. */
uint32_t *map_words(const char *path, size_t count);

#endif
