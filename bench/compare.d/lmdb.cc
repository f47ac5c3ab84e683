// LMDB with its default flags: a batch is one write transaction, and its commit forces. A commit of a transaction that
// changed nothing writes and forces nothing.

#include "script.h"

#include <lmdb.h>

namespace {

// The most bytes that the store may take. LMDB asks for it beforehand; the file is as large as what it holds.
constexpr size_t MAP_BYTES = size_t{4} << 30;

void check(int status) {
    if (status != MDB_SUCCESS) fail(mdb_strerror(status));
}

MDB_val bytes_of(std::string_view bytes) {
    return {bytes.size(), const_cast<char*>(bytes.data())};
}

std::string_view view_of(const MDB_val& value) {
    return {static_cast<const char*>(value.mv_data), value.mv_size};
}

class Lmdb {
public:
    explicit Lmdb(const std::string& folder) {
        check(mdb_env_create(&store_));
        check(mdb_env_set_mapsize(store_, MAP_BYTES));
        check(mdb_env_open(store_, folder.c_str(), 0, 0644));
        begin();
        check(mdb_dbi_open(batch_, nullptr, 0, &rows_));
    }

    ~Lmdb() {
        mdb_txn_abort(batch_);
        mdb_env_close(store_);
    }

    void put(uint8_t cache, std::string_view key, std::string_view value) {
        std::string row = row_key(cache, key);
        MDB_val at = bytes_of(row), what = bytes_of(value);
        check(mdb_put(batch_, rows_, &at, &what, 0));
    }

    bool get(uint8_t cache, std::string_view key, std::string& value) {
        std::string row = row_key(cache, key);
        MDB_val at = bytes_of(row), found;
        int status = mdb_get(batch_, rows_, &at, &found);
        if (status == MDB_NOTFOUND) return false;
        check(status);
        value = view_of(found);
        return true;
    }

    bool remove(uint8_t cache, std::string_view key) {
        std::string row = row_key(cache, key);
        MDB_val at = bytes_of(row);
        int status = mdb_del(batch_, rows_, &at, nullptr);
        if (status == MDB_NOTFOUND) return false;
        check(status);
        return true;
    }

    template <class Each>
    void scan(uint8_t cache, Each each) {
        std::string first(1, static_cast<char>(cache));
        MDB_val key = bytes_of(first), value;
        MDB_cursor* rows;
        check(mdb_cursor_open(batch_, rows_, &rows));
        int status = mdb_cursor_get(rows, &key, &value, MDB_SET_RANGE);
        while (status == MDB_SUCCESS && view_of(key)[0] == first[0]) {
            each(view_of(key).substr(1), view_of(value));
            status = mdb_cursor_get(rows, &key, &value, MDB_NEXT);
        }
        if (status != MDB_NOTFOUND) check(status);
        mdb_cursor_close(rows);
    }

    void force() {
        check(mdb_txn_commit(batch_));
        begin();
    }

private:
    void begin() { check(mdb_txn_begin(store_, nullptr, 0, &batch_)); }

    MDB_env* store_;
    MDB_txn* batch_;
    MDB_dbi rows_;
};

}  // namespace

int main(int count, char** words) {
    return drive<Lmdb>(count, words);
}
