// A plain ordered map with one log: what the promise of a durable key-value store costs at the least.
//
// All rows are in memory. The log is one file that only grows; a batch appends its records by one write and one force.
// A batch that changed nothing is not forced, since nothing is unforced. Opening reads the log from its start and cuts
// it after the last whole record.
//
//   record, numbers little-endian
//   offset  size  field
//        0     1  kind          1 put, 2 remove
//        1     1  cache
//        2     1  key length    k
//        3     2  value length  v, 0 for a remove
//        5     k  key
//      5+k     v  value
//    5+k+v     4  CRC-32 of all bytes before it

#include "script.h"

#include <array>
#include <map>
#include <utility>

#include <fcntl.h>
#include <sys/stat.h>

namespace {

constexpr size_t HEADER = 5;
constexpr size_t SUM = 4;

constexpr std::array<uint32_t, 256> crc_table() {
    std::array<uint32_t, 256> table{};
    for (uint32_t byte = 0; byte < 256; ++byte) {
        uint32_t sum = byte;
        for (int bit = 0; bit < 8; ++bit) sum = sum & 1 ? sum >> 1 ^ 0xedb88320 : sum >> 1;
        table[byte] = sum;
    }
    return table;
}

constexpr auto CRC_TABLE = crc_table();

uint32_t crc32(std::string_view bytes) {
    uint32_t sum = ~0u;
    for (unsigned char byte : bytes) sum = sum >> 8 ^ CRC_TABLE[(sum ^ byte) & 0xff];
    return ~sum;
}

enum Kind : char { PUT = 1, REMOVE = 2 };

struct Record {
    Kind kind;
    uint8_t cache;
    std::string_view key, value;
};

void append_record(std::string& log, const Record& record) {
    size_t start = log.size();
    const char header[HEADER] = {
        record.kind,
        static_cast<char>(record.cache),
        static_cast<char>(record.key.size()),
        static_cast<char>(record.value.size() & 0xff),
        static_cast<char>(record.value.size() >> 8),
    };
    log.append(header, HEADER).append(record.key).append(record.value);
    uint32_t sum = crc32(std::string_view(log).substr(start));
    for (size_t byte = 0; byte < SUM; ++byte) log += static_cast<char>(sum >> 8 * byte);
}

// Takes the record at the front of the log, unless it is torn or damaged.
bool take_record(std::string_view& log, Record& record) {
    auto byte = [&](size_t at) { return static_cast<uint8_t>(log[at]); };
    if (log.size() < HEADER) return false;
    size_t key = byte(2), value = byte(3) | byte(4) << 8;
    size_t end = HEADER + key + value;
    if (log.size() < end + SUM) return false;
    uint32_t sum = 0;
    for (size_t at = 0; at < SUM; ++at) sum |= static_cast<uint32_t>(byte(end + at)) << 8 * at;
    if (sum != crc32(log.substr(0, end))) return false;
    record.kind = static_cast<Kind>(log[0]);
    record.cache = byte(1);
    record.key = log.substr(HEADER, key);
    record.value = log.substr(HEADER + key, value);
    log.remove_prefix(end + SUM);
    return true;
}

class PlainMap {
public:
    explicit PlainMap(const std::string& folder) {
        file_ = open((folder + "/log").c_str(), O_RDWR | O_CREAT | O_APPEND, 0644);
        int above = open(folder.c_str(), O_RDONLY | O_DIRECTORY);
        if (file_ < 0 || above < 0) fail("open failed");
        replay();
        if (fdatasync(file_) != 0 || fsync(above) != 0) fail("force failed");
        close(above);
    }

    void put(uint8_t cache, std::string_view key, std::string_view value) {
        append_record(unforced_, {PUT, cache, key, value});
        set(cache, key, value);
    }

    bool get(uint8_t cache, std::string_view key, std::string& value) {
        auto row = rows_.find(sought(cache, key));
        if (row == rows_.end()) return false;
        value = row->second;
        return true;
    }

    bool remove(uint8_t cache, std::string_view key) {
        auto row = rows_.find(sought(cache, key));
        if (row == rows_.end()) return false;
        append_record(unforced_, {REMOVE, cache, key, {}});
        rows_.erase(row);
        return true;
    }

    template <class Each>
    void scan(uint8_t cache, Each each) {
        auto row = rows_.lower_bound(sought(cache, {}));
        for (; row != rows_.end() && row->first.first == cache; ++row) {
            each(row->first.second, row->second);
        }
    }

    void force() {
        if (unforced_.empty()) return;
        write_all(file_, unforced_);
        if (fdatasync(file_) != 0) fail("force failed");
        unforced_.clear();
    }

private:
    using Key = std::pair<uint8_t, std::string>;

    // One key that is filled anew, so that a look-up takes no memory.
    const Key& sought(uint8_t cache, std::string_view key) {
        sought_.first = cache;
        sought_.second = key;
        return sought_;
    }

    void set(uint8_t cache, std::string_view key, std::string_view value) {
        rows_.try_emplace(sought(cache, key)).first->second = value;
    }

    void replay() {
        struct stat about;
        if (fstat(file_, &about) != 0) fail("the log can't be read");
        std::string log(about.st_size, '\0');
        for (size_t at = 0; at < log.size();) {
            ssize_t count = pread(file_, &log[at], log.size() - at, at);
            if (count <= 0) fail("the log can't be read");
            at += count;
        }
        std::string_view rest = log;
        Record record;
        while (take_record(rest, record)) {
            if (record.kind == PUT) {
                set(record.cache, record.key, record.value);
            } else {
                rows_.erase(sought(record.cache, record.key));
            }
        }
        if (rest.empty()) return;
        if (ftruncate(file_, log.size() - rest.size()) != 0) fail("the log can't be cut");
    }

    int file_;
    std::map<Key, std::string> rows_;
    std::string unforced_;
    Key sought_;
};

}  // namespace

int main(int count, char** words) {
    return drive<PlainMap>(count, words);
}
