/* Berkeley DB as the sheet run uses it: one B-tree in memory, no environment, no locks, no log. */
#include <db.h>
#include <stdint.h>
#include <stdlib.h>
#include <string.h>

struct berkeley {
  DB *db;
  DBC *cursor;
};

static DBT lent(const void *bytes, size_t n) {
  DBT t;
  memset(&t, 0, sizeof t);
  t.data = (void *)bytes;
  t.size = t.ulen = (uint32_t)n;
  t.flags = DB_DBT_USERMEM;
  return t;
}

/* A cache that holds all, so that nothing is ever written to disk. */
struct berkeley *berkeley_new(void) {
  struct berkeley *b = calloc(1, sizeof *b);
  if (b == NULL || db_create(&b->db, NULL, 0) != 0)
    return NULL;
  if (b->db->set_cachesize(b->db, 0, 256u << 20, 1) != 0)
    return NULL;
  if (b->db->open(b->db, NULL, NULL, NULL, DB_BTREE, DB_CREATE, 0) != 0)
    return NULL;
  return b;
}

void berkeley_free(struct berkeley *b) {
  if (b->cursor != NULL)
    b->cursor->close(b->cursor);
  b->db->close(b->db, DB_NOSYNC);
  free(b);
}

int berkeley_put(struct berkeley *b, const void *key, size_t key_bytes, const void *value, size_t value_bytes) {
  DBT k = lent(key, key_bytes), v = lent(value, value_bytes);
  return b->db->put(b->db, NULL, &k, &v, DB_NOOVERWRITE);
}

int berkeley_get(struct berkeley *b, const void *key, size_t key_bytes, void *value, size_t value_bytes) {
  DBT k = lent(key, key_bytes), v = lent(value, value_bytes);
  return b->db->get(b->db, NULL, &k, &v, 0);
}

int berkeley_delete(struct berkeley *b, const void *key, size_t key_bytes) {
  DBT k = lent(key, key_bytes);
  return b->db->del(b->db, NULL, &k, 0);
}

int berkeley_walk(struct berkeley *b) { return b->db->cursor(b->db, NULL, &b->cursor, 0); }

int berkeley_next(struct berkeley *b, void *key, size_t key_bytes, void *value, size_t value_bytes) {
  DBT k = lent(key, key_bytes), v = lent(value, value_bytes);
  return b->cursor->get(b->cursor, &k, &v, DB_NEXT);
}
