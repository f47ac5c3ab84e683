// SQLite in WAL mode with synchronous=FULL, all else by default: a batch is one transaction, and its commit forces. A
// commit of a transaction that changed nothing writes and forces nothing.

#include "script.h"

#include <sqlite3.h>

namespace {

constexpr char SETUP[] =
    "PRAGMA journal_mode = WAL;"
    "PRAGMA synchronous = FULL;"
    "CREATE TABLE IF NOT EXISTS rows (key BLOB PRIMARY KEY, value BLOB NOT NULL) WITHOUT ROWID;"
    "BEGIN;";

constexpr char PUT[] =
    "INSERT INTO rows VALUES (?1, ?2) ON CONFLICT (key) DO UPDATE SET value = ?2";

class Sqlite {
public:
    explicit Sqlite(const std::string& folder) {
        check(sqlite3_open((folder + "/rows.db").c_str(), &store_));
        check(sqlite3_exec(store_, SETUP, nullptr, nullptr, nullptr));
        begin_ = prepare("BEGIN");
        commit_ = prepare("COMMIT");
        put_ = prepare(PUT);
        get_ = prepare("SELECT value FROM rows WHERE key = ?1");
        remove_ = prepare("DELETE FROM rows WHERE key = ?1");
        scan_ = prepare("SELECT key, value FROM rows WHERE key >= ?1 AND key < ?2 ORDER BY key");
    }

    ~Sqlite() {
        for (auto statement : {begin_, commit_, put_, get_, remove_, scan_}) {
            sqlite3_finalize(statement);
        }
        sqlite3_close(store_);
    }

    void put(uint8_t cache, std::string_view key, std::string_view value) {
        std::string row = row_key(cache, key);
        bind(put_, 1, row);
        bind(put_, 2, value);
        run(put_);
    }

    bool get(uint8_t cache, std::string_view key, std::string& value) {
        std::string row = row_key(cache, key);
        bind(get_, 1, row);
        bool is_there = step(get_);
        if (is_there) value = column(get_, 0);
        check(sqlite3_reset(get_));
        return is_there;
    }

    bool remove(uint8_t cache, std::string_view key) {
        std::string row = row_key(cache, key);
        bind(remove_, 1, row);
        run(remove_);
        return sqlite3_changes(store_) > 0;
    }

    template <class Each>
    void scan(uint8_t cache, Each each) {
        std::string first = row_key(cache, {}), behind = row_key(cache + 1, {});
        bind(scan_, 1, first);
        bind(scan_, 2, behind);
        while (step(scan_)) each(column(scan_, 0).substr(1), column(scan_, 1));
        check(sqlite3_reset(scan_));
    }

    void force() {
        run(commit_);
        run(begin_);
    }

private:
    void check(int status) {
        if (status != SQLITE_OK) fail(sqlite3_errmsg(store_));
    }

    sqlite3_stmt* prepare(const char* text) {
        sqlite3_stmt* statement;
        check(sqlite3_prepare_v2(store_, text, -1, &statement, nullptr));
        return statement;
    }

    // The bytes have to stay until the statement is run.
    void bind(sqlite3_stmt* statement, int number, std::string_view bytes) {
        check(sqlite3_bind_blob(statement, number, bytes.data(), bytes.size(), SQLITE_STATIC));
    }

    // Whether there is another row.
    bool step(sqlite3_stmt* statement) {
        int status = sqlite3_step(statement);
        if (status != SQLITE_ROW && status != SQLITE_DONE) check(status);
        return status == SQLITE_ROW;
    }

    void run(sqlite3_stmt* statement) {
        step(statement);
        check(sqlite3_reset(statement));
    }

    std::string_view column(sqlite3_stmt* statement, int number) {
        auto bytes = static_cast<const char*>(sqlite3_column_blob(statement, number));
        return {bytes, static_cast<size_t>(sqlite3_column_bytes(statement, number))};
    }

    sqlite3* store_;
    sqlite3_stmt *begin_, *commit_, *put_, *get_, *remove_, *scan_;
};

}  // namespace

int main(int count, char** words) {
    return drive<Sqlite>(count, words);
}
