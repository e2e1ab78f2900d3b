// Generated manifests of one kind each, the same bytes in every run. All are valid TOML but those of the kind "keys",
// whose tokens are all valid, but which open the same ten tables again and again.
#pragma once

#include <cstdio>
#include <string>
#include <vector>

namespace bench {

// What is measured: a text, under the name of its row in a table. Its strings are decoded, or its keys in their place.
struct Document {
    std::string name, text;
    bool decodes_keys = false;
};

// A kind of manifest: its name, and its n-th entry, a line or a few, which is enough to tell the kinds apart.
struct Kind {
    const char *name;
    std::string (*entry)(unsigned n);
    bool decodes_keys = false;
};

inline std::string key(unsigned n)
{
    char text[16];
    std::snprintf(text, sizeof text, "k%07u", n);
    return text;
}

inline std::string repeated(const std::string &text, unsigned times)
{
    std::string all;
    for (unsigned i = 0; i < times; i++) {
        all += text;
    }
    return all;
}

inline std::string quoted(unsigned n, const std::string &body)
{
    return key(n) + " = \"" + body + "\"\n";
}

// `quotes` are three, of either kind.
inline std::string multi_line(unsigned n, const std::string &quotes)
{
    return key(n) + " = " + quotes + "\n" + repeated("  a line of a multi-line string\n", 12) + quotes + "\n";
}

inline std::string last_digit(unsigned n)
{
    return std::to_string(n % 10);
}

inline const std::vector<Kind> kinds = {
    {"short strings", [](unsigned n) { return quoted(n, n % 2 ? "-O2" : "release"); }},
    {"long strings", [](unsigned n) { return quoted(n, repeated("a long line of plain text, ", 36)); }},
    {"comments",
     [](unsigned n) { return "# a comment that says why the next line is as it is, at some length\n" + quoted(n, "-g"); }},
    {"many tokens", [](unsigned n) { return key(n) + " = [1, [2, 3], { a.b = 4, c = 5 }]\n"; }},
    // characters of two, three and four bytes, together and then apart
    {"multi-byte text", [](unsigned n) { return quoted(n, repeated("Größe \u03b1\u03b2 \u6771\u4eac \U0001F600 ", 8)); }},
    {"Greek", [](unsigned n) { return quoted(n, repeated("Καλημέρα κόσμε ", 20)); }},
    {"Japanese", [](unsigned n) { return quoted(n, repeated("日本語の文章です。", 20)); }},
    {"emoji", [](unsigned n) { return quoted(n, repeated("\U0001F600\U0001F680", 40)); }},
    {"escapes", [](unsigned n) { return quoted(n, repeated("\\t\\\"\\\\ \\u00e9 \\U0001F600 x", 8)); }},
    {"ml basic", [](unsigned n) { return multi_line(n, "\"\"\""); }},
    {"ml literal", [](unsigned n) { return multi_line(n, "'''"); }},
    {"literals", [](unsigned n) { return key(n) + " = 'C:\\Users\\n" + last_digit(n) + "'\n"; }},
    // no strings: its Atoms are decoded as keys, the value `true` too, for it could be one
    {"keys",
     [](unsigned n) { return "[package.metadata.section-" + last_digit(n) + "]\nname_" + std::to_string(n) + " = true\n"; }, true},
};

// As many entries of a kind as fit into `size` bytes.
inline std::string manifest(const Kind &kind, size_t size)
{
    std::string doc;
    for (unsigned n = 0;; n++) {
        std::string entry = kind.entry(n);
        if (doc.size() + entry.size() > size) {
            return doc;
        }
        doc += entry;
    }
}

// A manifest of each kind.
inline std::vector<Document> manifests(size_t size)
{
    std::vector<Document> all;
    for (const auto &kind : kinds) {
        all.push_back({kind.name, manifest(kind, size), kind.decodes_keys});
    }
    return all;
}

} // namespace bench
