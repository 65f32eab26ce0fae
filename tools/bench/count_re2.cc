// count_re2 FILE PATTERN all|first|again|compile: prints the number of matches, and the CPU seconds and the seconds of
// the search; with `again` of the first match and its groups, with `compile` of compiling and of the first match
// together, each the mean of many runs.
#include <chrono>
#include <cstdio>
#include <cstring>
#include <ctime>
#include <fstream>
#include <iterator>
#include <string>
#include <vector>

#include <re2/re2.h>

#include "mean.h"

// Compiles the pattern and searches for its first match, and prints the mean time.
static int compile(const char *pattern, const std::string &text, const RE2::Options &options) {
    re2::StringPiece found;
    return repeat(1, [&] {
        RE2 regex(pattern, options);
        return regex.ok() ? int(regex.Match(text, 0, text.size(), RE2::UNANCHORED, &found, 1)) : -1;
    });
}

// Searches for the first match and its groups, and prints the mean time.
static int again(const RE2 &regex, const std::string &text) {
    std::vector<re2::StringPiece> groups(regex.NumberOfCapturingGroups() + 1);
    return repeat(REPEATED, [&] {
        return int(regex.Match(text, 0, text.size(), RE2::UNANCHORED, groups.data(), groups.size()));
    });
}

int main(int, char **argv) {
    std::ifstream file(argv[1]);
    std::string text((std::istreambuf_iterator<char>(file)), std::istreambuf_iterator<char>());
    RE2::Options options;
    options.set_log_errors(false);
    if (!strcmp(argv[3], "compile")) return compile(argv[2], text, options);
    RE2 regex(argv[2], options);
    if (!regex.ok()) return 1;
    if (!strcmp(argv[3], "again")) return again(regex, text);
    bool all = !strcmp(argv[3], "all");
    re2::StringPiece found;
    size_t count = 0, from = 0;
    auto started = std::chrono::steady_clock::now();
    clock_t before = clock();
    while (from <= text.size() && regex.Match(text, from, text.size(), RE2::UNANCHORED, &found, 1)) {
        count++;
        if (!all) break;
        from = found.data() - text.data() + found.size();
        // behind an empty match the next character is skipped
        if (found.empty()) do from++; while (from < text.size() && (text[from] & 0xC0) == 0x80);
    }
    double used = double(clock() - before) / CLOCKS_PER_SEC;
    std::chrono::duration<double> taken = std::chrono::steady_clock::now() - started;
    printf("%zu %f %f\n", count, used, taken.count());
}
