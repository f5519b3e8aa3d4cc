/* lmdb FILE rising|random MANY PHASE: so many keys of 32 bytes put into a new file in one transaction; with phase 2 each is got, with 3 all are gone over as well. */
#include <lmdb.h>
#include <stdint.h>
#include <stdio.h>
#include <stdlib.h>
#include <string.h>
static void key_of(unsigned char *key, uint32_t id) {
    memset(key, 0, 32);
    key[0] = 1;
    for (int i = 0; i < 4; i++) key[1 + i] = id >> (24 - 8 * i);
}
#define MUST(x) do { int rc = (x); if (rc) { fprintf(stderr, "%s\n", mdb_strerror(rc)); exit(1); } } while (0)
int main(int argc, char **argv) {
    int is_random = !strcmp(argv[2], "random"), phase = atoi(argv[4]);
    uint32_t many = strtoul(argv[3], 0, 10);
    MDB_env *env; MDB_txn *txn; MDB_dbi dbi; MDB_stat stat;
    unsigned char bytes[32];
    MUST(mdb_env_create(&env));
    MUST(mdb_env_set_mapsize(env, 1ul << 34));
    remove(argv[1]);
    MUST(mdb_env_open(env, argv[1], MDB_NOSUBDIR | MDB_NOSYNC | MDB_NOLOCK | MDB_WRITEMAP, 0644));
    MUST(mdb_txn_begin(env, 0, 0, &txn));
    MUST(mdb_dbi_open(txn, 0, 0, &dbi));
    uint64_t x = 1;
    for (uint32_t n = 0; n < many; n++) {
        x = x * 16807 % 2147483647;
        key_of(bytes, is_random ? (uint32_t)x : n);
        uint64_t value = n;
        MDB_val k = { 32, bytes }, v = { 8, &value };
        MUST(mdb_put(txn, dbi, &k, &v, 0));
    }
    x = 1;
    if (phase > 1) for (uint32_t n = 0; n < many; n++) {
        x = x * 16807 % 2147483647;
        key_of(bytes, is_random ? (uint32_t)x : n);
        MDB_val k = { 32, bytes }, v;
        MUST(mdb_get(txn, dbi, &k, &v));
    }
    if (phase > 2) {
        MDB_cursor *cursor; MDB_val k, v; uint32_t n = 0;
        MUST(mdb_cursor_open(txn, dbi, &cursor));
        while (!mdb_cursor_get(cursor, &k, &v, MDB_NEXT)) n++;
        if (n != many) { fprintf(stderr, "%u keys\n", n); exit(1); }
    }
    MUST(mdb_stat(txn, dbi, &stat));
    printf("%zu pages, height %u\n", stat.ms_branch_pages + stat.ms_leaf_pages, stat.ms_depth);
    return 0;
}
