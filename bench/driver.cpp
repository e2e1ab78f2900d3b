// The one driver of bench/run: the same documents through every phase, in one process.
//   driver time [FILE...]    bytes a second, and how time grows with size
//   driver count [FILE...]   each phase once between marks of bench/count.c, for exact instruction counts
//   driver calls             single calls on a few bytes between the same marks
// A table's row is a document, in Markdown: a generated manifest, or a file as it is.
#include "manifests.hpp"
#include "galoxumi.h"

#include <algorithm>
#include <chrono>
#include <cstdlib>
#include <cstring>
#include <filesystem>
#include <fstream>
#include <iterator>
#include <string_view>
#include <toml++/toml.h>
#include <unistd.h>

extern "C" size_t rust_from_utf8(const uint8_t *text, size_t len);

namespace {

using bench::Document;

// What a phase works on: a document, its tokens to decode, and memory that always suffices.
struct Work {
    std::string doc;
    std::vector<uint8_t> out;
    std::vector<galoxumi_token> tokens;
    std::vector<galoxumi_error> errors;
    std::vector<galoxumi_token> encoded; // its strings, or its Atoms where a document's keys are decoded
    size_t doc_bytes, encoded_bytes = 0, parsed_bytes; // the bytes that are read: of the document, by decoding, by toml++

    explicit Work(const Document &document)
        : doc(document.text), out(GALOXUMI_MOST_BYTES(doc.size())), tokens(GALOXUMI_MOST_TOKENS(std::max(doc.size(), size_t{4096}))),
          errors(GALOXUMI_MOST_ERRORS(doc.size())),
          doc_bytes(doc.size()), parsed_bytes(parses() ? doc.size() : 0)
    {
        size_t count = lex();
        for (size_t i = 0; i < count; i++) {
            galoxumi_token token = tokens[i];
            if (document.decodes_keys ? token.kind == GALOXUMI_ATOM : galoxumi_encoding(token.kind).encoding != 0) {
                encoded.push_back(token);
                encoded_bytes += token.end - token.start;
            }
        }
    }

    const uint8_t *bytes() const { return reinterpret_cast<const uint8_t *>(doc.data()); }

    size_t copy() { return std::memcpy(out.data(), doc.data(), doc.size()) == out.data(); }
    size_t rust_check() { return rust_from_utf8(bytes(), doc.size()); }
    size_t check() { return galoxumi_check_utf8(bytes(), doc.size()).refusal; }
    size_t lex() { return galoxumi_lex(bytes(), doc.size(), tokens.data(), tokens.size()).value; }
    size_t broken() { return galoxumi_first_broken(bytes(), doc.size()).found; }
    size_t position() { return galoxumi_position(bytes(), doc.size(), doc.size()).column; }
    size_t parse() { return toml::parse(std::string_view(doc)).size(); }

    // toml++ refuses a document that defines a table twice, as the kind "keys" does.
    bool parses()
    {
        try {
            parse();
            return true;
        } catch (const toml::parse_error &) {
            return false;
        }
    }

    // In parts of a page, each lent as many tokens as it can give, and the closing word.
    size_t parts()
    {
        const size_t page = 4096;
        size_t given = 0;
        galoxumi_parts state = galoxumi_parts_start();
        for (size_t at = 0; at < doc.size(); at += page) {
            const size_t len = std::min(page, doc.size() - at);
            galoxumi_fed fed = galoxumi_parts_feed(&state, bytes() + at, len, tokens.data(), GALOXUMI_MOST_OF_PART(page));
            given += fed.answer.value;
            state = fed.state;
        }
        return given + galoxumi_parts_close(&state, tokens.data(), GALOXUMI_MOST_AT_CLOSE).answer.value;
    }

    // One step a token, Eof the last.
    size_t walk()
    {
        size_t tokens = 0;
        galoxumi_cursor at = galoxumi_start(bytes(), doc.size()).cursor;
        while (at.ended == 0) {
            at = galoxumi_step(bytes(), doc.size(), at.place, at.ended, at.line).cursor;
            tokens++;
        }
        return tokens;
    }

    size_t decode()
    {
        size_t all = 0;
        for (const auto &t : encoded) {
            all += galoxumi_decode(bytes() + t.start, t.end - t.start, t.kind, out.data(), out.size(), errors.data(), errors.size())
                       .answer.value;
        }
        return all;
    }
};

// A phase: its name, what it does, and how many bytes it reads of a document.
struct Phase {
    const char *name;
    size_t (Work::*run)();
    size_t Work::*reads;
};

const std::vector<Phase> phases = {
    {"memcpy", &Work::copy, &Work::doc_bytes},
    {"from_utf8", &Work::rust_check, &Work::doc_bytes},
    {"UTF-8 check", &Work::check, &Work::doc_bytes},
    {"lexing", &Work::lex, &Work::doc_bytes},
    {"parts", &Work::parts, &Work::doc_bytes},
    {"step", &Work::walk, &Work::doc_bytes},
    {"position", &Work::position, &Work::doc_bytes},
    {"decoding", &Work::decode, &Work::encoded_bytes},
    {"first broken", &Work::broken, &Work::doc_bytes},
    {"toml++ parse", &Work::parse, &Work::parsed_bytes},
};
enum { MEMCPY, FROM_UTF8, CHECK, LEXING, PARTS, STEP, POSITION, DECODING, BROKEN, PARSE };

// Takes what a phase computes, so that the compiler does not leave the computation out.
volatile size_t sink;

// bench/count.c's MARK
const long mark = 0x7A7A;

// Seconds of one run: the best of several batches, each long enough to measure.
double seconds(const Phase &phase, Work &work)
{
    using clock = std::chrono::steady_clock;
    double best = 1e9;
    size_t turns = 1;
    for (int batch = 0; batch < 6; batch++) {
        auto began = clock::now();
        for (size_t i = 0; i < turns; i++) {
            sink = (work.*phase.run)();
        }
        double took = std::chrono::duration<double>(clock::now() - began).count();
        best = std::min(best, took / static_cast<double>(turns));
        if (took < 0.004) {
            turns = static_cast<size_t>(0.008 / best) + 1;
        } else if (took > 0.5) {
            break;
        }
    }
    return best;
}

void header(const std::string &title, const std::vector<std::string> &columns)
{
    std::printf("\n%s\n\n| document |", title.c_str());
    for (const auto &c : columns) {
        std::printf(" %s |", c.c_str());
    }
    std::printf("\n|---|");
    for (size_t i = 0; i < columns.size(); i++) {
        std::printf("--:|");
    }
    std::printf("\n");
}

const std::vector<size_t> sizes = {4096, 65536, 1048576, 16777216};
const std::vector<std::string> size_names = {"4 KiB", "64 KiB", "1 MiB", "16 MiB"};

std::vector<std::string> phase_names()
{
    std::vector<std::string> names;
    for (const auto &phase : phases) {
        names.push_back(phase.name);
    }
    return names;
}

// Nanoseconds a byte of each phase; 0 where it has nothing to read.
using Costs = std::vector<double>;

Costs costs_of(const Document &document)
{
    Work work(document);
    Costs costs;
    for (const auto &phase : phases) {
        size_t n = work.*phase.reads;
        costs.push_back(n == 0 ? 0 : seconds(phase, work) * 1e9 / static_cast<double>(n));
    }
    return costs;
}

struct Row {
    std::string name;
    Costs costs;
};
using Table = std::vector<Row>;

// One more round: a cell keeps the best of all, so that a slow moment of the machine spoils one round only.
void measure(const std::vector<Document> &documents, Table &table)
{
    table.resize(documents.size());
    for (size_t d = 0; d < documents.size(); d++) {
        Costs costs = costs_of(documents[d]);
        Costs &known = table[d].costs;
        known.resize(costs.size(), 1e9);
        std::transform(known.begin(), known.end(), costs.begin(), known.begin(), [](double a, double b) { return std::min(a, b); });
        table[d].name = documents[d].name;
    }
}

void print_cell(double value, int digits)
{
    value > 0 ? std::printf(" %.*f |", digits, value) : std::printf(" - |");
}

void print_speeds(const std::string &documents, const Table &table)
{
    auto columns = phase_names();
    columns.insert(columns.end(), {"check : from_utf8", "lexing : toml++", "memcpy : lexing"});
    header("MB a second, " + documents + "; the last three columns are ratios of speeds", columns);
    for (const auto &[name, c] : table) {
        std::printf("| %s |", name.c_str());
        for (double ns : c) {
            print_cell(ns > 0 ? 1e3 / ns : 0, 0);
        }
        print_cell(c[FROM_UTF8] / c[CHECK], 2);
        print_cell(c[PARSE] / c[LEXING], 1);
        print_cell(c[LEXING] / c[MEMCPY], 1);
        std::printf("\n");
    }
}

void print_growth(const Table &smallest, const Table &largest)
{
    header("How time grows: time a byte at 16 MiB over time a byte at 4 KiB; 1.0 is linear", phase_names());
    for (size_t k = 0; k < smallest.size(); k++) {
        std::printf("| %s |", smallest[k].name.c_str());
        for (size_t p = 0; p < phases.size(); p++) {
            double small = smallest[k].costs[p], large = largest[k].costs[p];
            print_cell(small > 0 ? large / small : 0, 2);
        }
        std::printf("\n");
    }
}

void time_all(const std::vector<Document> &real)
{
    std::vector<Table> by_size(sizes.size());
    Table of_real;
    for (int round = 0; round < 4; round++) {
        for (size_t s = 0; s < sizes.size(); s++) {
            measure(bench::manifests(sizes[s]), by_size[s]);
        }
        measure(real, of_real);
    }
    for (size_t s = 0; s < sizes.size(); s++) {
        print_speeds("documents of " + size_names[s], by_size[s]);
    }
    print_growth(by_size.front(), by_size.back());
    if (!real.empty()) {
        print_speeds("real documents, each at its own size", of_real);
    }
}

// One run between two marks. Prints what is counted; the count itself is written by the plugin, to standard error and
// in the same order.
template <typename Run> void count(const std::string &what, Run run)
{
    syscall(mark, 0);
    sink = run();
    syscall(mark, 1);
    std::printf("%s\n", what.c_str());
}

// Each phase that has anything to read, as document, phase, bytes. It runs once before, to warm up: what toml++ costs
// depends on what was allocated and freed before.
void count_all(const std::vector<Document> &real)
{
    auto documents = bench::manifests(65536);
    documents.insert(documents.end(), real.begin(), real.end());
    for (const auto &document : documents) {
        Work work(document);
        for (const auto &phase : phases) {
            size_t n = work.*phase.reads;
            if (n > 0) {
                sink = (work.*phase.run)();
                count(document.name + "|" + phase.name + "|" + std::to_string(n), [&] { return (work.*phase.run)(); });
            }
        }
    }
}

// Memory that always suffices for a call on a few bytes.
uint8_t few_bytes[16];
galoxumi_token few_tokens[16];
galoxumi_error few_errors[16];

struct Text {
    std::string bytes;
    size_t kind;
};

const std::vector<Text> short_texts = {
    {"\"-O2\"", GALOXUMI_BASIC_STRING},
    {"'-O2'", GALOXUMI_LITERAL_STRING},
    {"name", GALOXUMI_ATOM},
    {"\"é\"", GALOXUMI_BASIC_STRING},
    {"\"\\n\"", GALOXUMI_BASIC_STRING},
    {"\"\"\"a\"\"\"", GALOXUMI_ML_BASIC_STRING},
    {"'''a'''", GALOXUMI_ML_LITERAL_STRING},
};

void count_decode(const Text &text)
{
    const auto *bytes = reinterpret_cast<const uint8_t *>(text.bytes.data());
    const size_t len = text.bytes.size(), kind = text.kind;
    count("galoxumi_decode, kind " + std::to_string(kind) + "|`" + text.bytes + "`",
          [=] { return galoxumi_decode(bytes, len, kind, few_bytes, 16, few_errors, 16).answer.value; });
}

// Single calls, as call, text. The first count is of two marks with no call between, to be taken off each of the
// others: what is left is the call, with the few instructions that hand over its arguments and take its answer.
void count_calls()
{
    static const char text[] = "a = \"b\"\n";
    const auto *doc = reinterpret_cast<const uint8_t *>(text);
    const size_t len = sizeof text - 1;
    const std::string on = "|`a = \"b\"` LF";
    count("nothing|", [] { return 0; });
    count("galoxumi_check_utf8" + on, [=] { return galoxumi_check_utf8(doc, len).refusal; });
    count("galoxumi_lex" + on, [=] { return galoxumi_lex(doc, len, few_tokens, 16).value; });
    count("galoxumi_start" + on, [=] { return galoxumi_start(doc, len).cursor.place; });
    count("galoxumi_step, first token" + on, [=] { return galoxumi_step(doc, len, 0, 0, 1).found; });
    const galoxumi_parts state = galoxumi_parts_start();
    count("galoxumi_parts_feed" + on, [=] { return galoxumi_parts_feed(&state, doc, len, few_tokens, 16).answer.value; });
    count("galoxumi_parts_feed, one byte|`a`", [=] { return galoxumi_parts_feed(&state, doc, 1, few_tokens, 16).answer.value; });
    count("galoxumi_position, at the end" + on, [=] { return galoxumi_position(doc, len, len).column; });
    for (const auto &short_text : short_texts) {
        count_decode(short_text);
    }
}

// A file, under its name without `.toml` and with its size.
Document file(const std::string &path)
{
    std::ifstream input(path, std::ios::binary);
    std::string text((std::istreambuf_iterator<char>(input)), std::istreambuf_iterator<char>());
    if (text.empty() || text.size() > GALOXUMI_LIMIT) {
        std::fprintf(stderr, "%s: missing, empty or too long\n", path.c_str());
        std::exit(1);
    }
    return {std::filesystem::path(path).stem().string() + ", " + std::to_string(text.size() / 1024) + " KiB", text};
}

} // namespace

int main(int argc, char **argv)
{
    const std::string mode = argc > 1 ? argv[1] : "";
    std::vector<Document> real;
    for (int i = 2; i < argc; i++) {
        real.push_back(file(argv[i]));
    }
    if (mode == "time") {
        std::printf("toml++ %d.%d.%d\n", TOML_LIB_MAJOR, TOML_LIB_MINOR, TOML_LIB_PATCH);
        time_all(real);
    } else if (mode == "count") {
        count_all(real);
    } else if (mode == "calls") {
        count_calls();
    } else {
        std::fprintf(stderr, "driver time [FILE...] | driver count [FILE...] | driver calls\n");
        return 2;
    }
    return 0;
}
