// Reads a script from standard input, hands its lines to a store, and prints the replies.
//
// Lines, replies and batches are those of ./pagemem run, but for three things. A field that begins with `x:` and a
// `checkpoint` line end the driver: the scripts of bench/compare have neither. No reply is `error full`: those scripts
// stay below 400,000 rows in each partition.
//
// A store is a class with these members. Keys and values are bytes; a key belongs to one of 16 caches.
//
//   explicit Store(const std::string& folder)       opens what the folder holds
//   void put(uint8_t cache, string_view key, string_view value)
//   bool get(uint8_t cache, string_view key, std::string& value)
//   bool remove(uint8_t cache, string_view key)     whether a value was there
//   void scan(uint8_t cache, each)                  calls each(key, value) by rising key
//   void force()                                    after it all changes survive a failure of power
//
// A get, a remove and a scan see the changes of their own batch. The driver forces once for each batch, before it prints.

#ifndef BENCH_COMPARE_SCRIPT_H
#define BENCH_COMPARE_SCRIPT_H

#include <cstdint>
#include <cstdio>
#include <cstdlib>
#include <string>
#include <string_view>

#include <unistd.h>

constexpr size_t BATCH_LINES = 1024;
constexpr size_t LINE_MAX_BYTES = 4096;
constexpr size_t KEY_MAX = 64;
constexpr size_t VALUE_MAX = 900;

// As many bytes as the program asks for at once, so that both read a script in as many calls.
constexpr size_t READ_BYTES = 65536;

// Ends the driver with 70.
[[noreturn]] inline void fail(const std::string& what) {
    fprintf(stderr, "%s\n", what.c_str());
    exit(70);
}

// Writes all bytes to an open file.
inline void write_all(int file, std::string_view bytes) {
    while (!bytes.empty()) {
        ssize_t count = write(file, bytes.data(), bytes.size());
        if (count < 0) fail("write failed");
        bytes.remove_prefix(count);
    }
}

// The key of a store that has one key space for all caches: the cache's byte, then the key.
inline std::string row_key(uint8_t cache, std::string_view key) {
    std::string row(1, static_cast<char>(cache));
    return row.append(key);
}

enum class Verb { Put, Get, Remove, Scan, Bad, Long };

// A line of the script. The fields that its verb lacks are empty.
struct Line {
    Verb verb;
    uint8_t cache = 0;
    std::string_view key = {}, value = {};
};

// Takes the bytes up to the next space, and the space.
inline std::string_view take_word(std::string_view& text) {
    size_t end = text.find(' ');
    std::string_view word = text.substr(0, end);
    text.remove_prefix(end == std::string_view::npos ? text.size() : end + 1);
    return word;
}

// Reads a cache number, in decimal without a leading zero.
inline bool read_cache(std::string_view word, uint8_t& cache) {
    if (word.empty() || word.size() > 2 || (word.size() == 2 && word[0] != '1')) return false;
    unsigned number = 0;
    for (char digit : word) {
        if (digit < '0' || digit > '9') return false;
        number = number * 10 + (digit - '0');
    }
    cache = static_cast<uint8_t>(number);
    return number < 16;
}

// Whether a word is a field of at most so many bytes.
inline bool is_field(std::string_view word, size_t most) {
    if (word.substr(0, 2) == "x:") fail("a driver reads no field of hexadecimal digits");
    if (word.empty() || word.size() > most) return false;
    for (char byte : word) {
        if (byte < 0x21 || byte > 0x7e) return false;
    }
    return true;
}

inline Line read_line(std::string_view text) {
    const Line bad{Verb::Bad};
    if (text.size() > LINE_MAX_BYTES) return {Verb::Long};
    if (text == "checkpoint") fail("a driver does no checkpoint");
    // take_word drops a space at the end, which makes the line bad.
    if (text.empty() || text.back() == ' ') return bad;

    std::string_view verb = take_word(text);
    Line line = bad;
    if (!read_cache(take_word(text), line.cache)) return bad;
    if (verb == "scan") {
        line.verb = Verb::Scan;
        return text.empty() ? line : bad;
    }
    line.key = take_word(text);
    if (!is_field(line.key, KEY_MAX)) return bad;
    if (verb == "put") {
        line.verb = Verb::Put;
        line.value = text;
        return is_field(text, VALUE_MAX) ? line : bad;
    }
    if (!text.empty()) return bad;
    if (verb == "get") line.verb = Verb::Get;
    if (verb == "remove") line.verb = Verb::Remove;
    return line;
}

// Does one line, and appends its reply.
template <class Store>
void answer(Store& store, const Line& line, std::string& replies) {
    static std::string value;
    size_t pairs = 0;
    switch (line.verb) {
    case Verb::Put:
        store.put(line.cache, line.key, line.value);
        replies += "ok\n";
        break;
    case Verb::Get:
        if (store.get(line.cache, line.key, value)) {
            replies.append("value ").append(value) += '\n';
        } else {
            replies += "none\n";
        }
        break;
    case Verb::Remove:
        replies += store.remove(line.cache, line.key) ? "true\n" : "false\n";
        break;
    case Verb::Scan:
        store.scan(line.cache, [&](std::string_view key, std::string_view found) {
            replies.append("pair ").append(key).append(" ").append(found) += '\n';
            ++pairs;
        });
        replies.append("end ").append(std::to_string(pairs)) += '\n';
        break;
    case Verb::Bad:
        replies += "error line\n";
        break;
    case Verb::Long:
        replies += "error long\n";
        break;
    }
}

// Runs the script batch by batch. A scan is a batch by itself.
template <class Store>
void run_script(Store& store) {
    static char input[READ_BYTES];
    setvbuf(stdin, input, _IOFBF, sizeof input);
    std::string replies;
    size_t lines = 0;
    auto end_batch = [&] {
        if (lines == 0) return;
        store.force();
        write_all(STDOUT_FILENO, replies);
        replies.clear();
        lines = 0;
    };

    char* bytes = nullptr;
    size_t room = 0;
    ssize_t count;
    while ((count = getline(&bytes, &room, stdin)) > 0) {
        std::string_view text(bytes, count);
        if (text.back() == '\n') text.remove_suffix(1);
        Line line = read_line(text);
        bool alone = line.verb == Verb::Scan;
        if (alone) end_batch();
        answer(store, line, replies);
        ++lines;
        if (alone || lines == BATCH_LINES) end_batch();
    }
    end_batch();
    free(bytes);
}

// The driver of a store: its one word is the folder, which is there.
template <class Store>
int drive(int count, char** words) {
    if (count != 2) fail("one word, the store's folder");
    Store store(words[1]);
    run_script(store);
    return 0;
}

#endif
