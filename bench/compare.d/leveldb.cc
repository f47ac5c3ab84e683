// LevelDB with its default options. A batch is one WriteBatch, written at the end with `sync`; a map beside it holds its
// changes for the batch's own reads, which a WriteBatch can't answer. A batch that changed nothing is not written.
//
// Writing each line by itself and only the last with `sync` would need no map, and would not be durable: where LevelDB
// goes on to a new log within a batch, it closes the old one without a force.

#include "script.h"

#include <memory>
#include <optional>
#include <unordered_map>

#include <leveldb/db.h>
#include <leveldb/write_batch.h>

namespace {

void check(const leveldb::Status& status) {
    if (!status.ok()) fail(status.ToString());
}

class LevelDb {
public:
    explicit LevelDb(const std::string& folder) {
        leveldb::Options options;
        options.create_if_missing = true;
        leveldb::DB* store;
        check(leveldb::DB::Open(options, folder, &store));
        store_.reset(store);
    }

    void put(uint8_t cache, std::string_view key, std::string_view value) {
        std::string row = row_key(cache, key);
        batch_.Put(row, leveldb::Slice(value.data(), value.size()));
        changed_[std::move(row)] = value;
    }

    bool get(uint8_t cache, std::string_view key, std::string& value) {
        return find(row_key(cache, key), value);
    }

    bool remove(uint8_t cache, std::string_view key) {
        std::string row = row_key(cache, key);
        if (!find(row, found_)) return false;
        batch_.Delete(row);
        changed_[std::move(row)] = std::nullopt;
        return true;
    }

    // A scan is a batch by itself, so that nothing is changed here.
    template <class Each>
    void scan(uint8_t cache, Each each) {
        std::unique_ptr<leveldb::Iterator> rows(store_->NewIterator({}));
        leveldb::Slice first(reinterpret_cast<const char*>(&cache), 1);
        for (rows->Seek(first); rows->Valid() && rows->key().starts_with(first); rows->Next()) {
            std::string_view key(rows->key().data(), rows->key().size());
            each(key.substr(1), std::string_view(rows->value().data(), rows->value().size()));
        }
        check(rows->status());
    }

    void force() {
        if (changed_.empty()) return;
        leveldb::WriteOptions options;
        options.sync = true;
        check(store_->Write(options, &batch_));
        batch_.Clear();
        changed_.clear();
    }

private:
    bool find(const std::string& row, std::string& value) {
        if (auto change = changed_.find(row); change != changed_.end()) {
            if (change->second) value = *change->second;
            return change->second.has_value();
        }
        leveldb::Status status = store_->Get({}, row, &value);
        if (status.IsNotFound()) return false;
        check(status);
        return true;
    }

    std::unique_ptr<leveldb::DB> store_;
    leveldb::WriteBatch batch_;
    // What the batch did to a row: its value, or nothing where it was removed.
    std::unordered_map<std::string, std::optional<std::string>> changed_;
    std::string found_;
};

}  // namespace

int main(int count, char** words) {
    return drive<LevelDb>(count, words);
}
