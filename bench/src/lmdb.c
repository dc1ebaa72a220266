/* LMDB as the sheet run uses it: a writable map that is never synced, no locks, and one transaction for each kind of call. */
#include <lmdb.h>
#include <stdint.h>
#include <stdlib.h>
#include <string.h>

struct lmdb {
  MDB_env *env;
  MDB_txn *txn;
  MDB_dbi dbi;
  MDB_cursor *cursor;
};

struct lmdb *lmdb_new(const char *path) {
  unsigned flags = MDB_NOSUBDIR | MDB_NOSYNC | MDB_NOMETASYNC | MDB_WRITEMAP | MDB_NOLOCK | MDB_NOTLS | MDB_NOMEMINIT;
  struct lmdb *m = calloc(1, sizeof *m);
  if (m == NULL || mdb_env_create(&m->env) != 0)
    return NULL;
  if (mdb_env_set_mapsize(m->env, (size_t)256 << 20) != 0 || mdb_env_open(m->env, path, flags, 0600) != 0)
    return NULL;
  if (mdb_txn_begin(m->env, NULL, 0, &m->txn) != 0 || mdb_dbi_open(m->txn, NULL, 0, &m->dbi) != 0)
    return NULL;
  return m;
}

void lmdb_free(struct lmdb *m) {
  if (m->cursor != NULL)
    mdb_cursor_close(m->cursor);
  if (m->txn != NULL)
    mdb_txn_abort(m->txn);
  mdb_env_close(m->env);
  free(m);
}

int lmdb_commit(struct lmdb *m) {
  MDB_txn *txn = m->txn;
  m->txn = NULL;
  return mdb_txn_commit(txn);
}

int lmdb_begin(struct lmdb *m, int reads_only) { return mdb_txn_begin(m->env, NULL, reads_only ? MDB_RDONLY : 0, &m->txn); }

int lmdb_put(struct lmdb *m, const void *key, size_t key_bytes, const void *value, size_t value_bytes, int append) {
  MDB_val k = {key_bytes, (void *)key}, v = {value_bytes, (void *)value};
  return mdb_put(m->txn, m->dbi, &k, &v, append ? MDB_APPEND : MDB_NOOVERWRITE);
}

int lmdb_get(struct lmdb *m, const void *key, size_t key_bytes, void *value, size_t value_bytes) {
  MDB_val k = {key_bytes, (void *)key}, v;
  int rc = mdb_get(m->txn, m->dbi, &k, &v);
  if (rc == 0)
    memcpy(value, v.mv_data, value_bytes);
  return rc;
}

int lmdb_delete(struct lmdb *m, const void *key, size_t key_bytes) {
  MDB_val k = {key_bytes, (void *)key};
  return mdb_del(m->txn, m->dbi, &k, NULL);
}

int lmdb_walk(struct lmdb *m) { return mdb_cursor_open(m->txn, m->dbi, &m->cursor); }

int lmdb_next(struct lmdb *m, void *value, size_t value_bytes) {
  MDB_val k, v;
  int rc = mdb_cursor_get(m->cursor, &k, &v, MDB_NEXT);
  if (rc == 0)
    memcpy(value, v.mv_data, value_bytes);
  return rc;
}
