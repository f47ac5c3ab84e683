// RocksDB with its default options. A batch is one WriteBatchWithIndex, which reads see, written at the end with `sync`.
// A batch that changed nothing is not written.

#include "script.h"

#include <memory>

#include <rocksdb/db.h>
#include <rocksdb/utilities/write_batch_with_index.h>

namespace {

void check(const rocksdb::Status& status) {
    if (!status.ok()) fail(status.ToString());
}

class RocksDb {
public:
    explicit RocksDb(const std::string& folder) : batch_(rocksdb::BytewiseComparator(), 0, true) {
        rocksdb::Options options;
        options.create_if_missing = true;
        rocksdb::DB* store;
        check(rocksdb::DB::Open(options, folder, &store));
        store_.reset(store);
    }

    void put(uint8_t cache, std::string_view key, std::string_view value) {
        check(batch_.Put(row_key(cache, key), rocksdb::Slice(value.data(), value.size())));
    }

    bool get(uint8_t cache, std::string_view key, std::string& value) {
        return find(row_key(cache, key), value);
    }

    bool remove(uint8_t cache, std::string_view key) {
        std::string row = row_key(cache, key);
        if (!find(row, found_)) return false;
        check(batch_.Delete(row));
        return true;
    }

    // A scan is a batch by itself, so that the batch is empty here.
    template <class Each>
    void scan(uint8_t cache, Each each) {
        std::unique_ptr<rocksdb::Iterator> rows(store_->NewIterator({}));
        rocksdb::Slice first(reinterpret_cast<const char*>(&cache), 1);
        for (rows->Seek(first); rows->Valid() && rows->key().starts_with(first); rows->Next()) {
            rocksdb::Slice key = rows->key();
            key.remove_prefix(1);
            each(key.ToStringView(), rows->value().ToStringView());
        }
        check(rows->status());
    }

    void force() {
        if (batch_.GetWriteBatch()->Count() == 0) return;
        rocksdb::WriteOptions options;
        options.sync = true;
        check(store_->Write(options, batch_.GetWriteBatch()));
        batch_.Clear();
    }

private:
    bool find(const std::string& row, std::string& value) {
        rocksdb::Status status = batch_.GetFromBatchAndDB(store_.get(), {}, row, &value);
        if (status.IsNotFound()) return false;
        check(status);
        return true;
    }

    std::unique_ptr<rocksdb::DB> store_;
    rocksdb::WriteBatchWithIndex batch_;
    std::string found_;
};

}  // namespace

int main(int count, char** words) {
    return drive<RocksDb>(count, words);
}
