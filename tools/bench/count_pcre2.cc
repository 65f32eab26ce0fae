// count_pcre2 interpreter|jit FILE PATTERN all|first|again|compile: prints the number of matches, and the CPU seconds and
// the seconds of the search, by PCRE2's interpreter or by its compiler; with `again` of the first match, with `compile`
// of compiling and of the first match together, each the mean of many runs. The status is 2 if a limit of PCRE2 is
// reached.
#define PCRE2_CODE_UNIT_WIDTH 8
#include <chrono>
#include <cstdio>
#include <cstring>
#include <ctime>
#include <fstream>
#include <iterator>
#include <string>

#include <pcre2.h>

#include "mean.h"

// Returns the compiled pattern, or NULL if PCRE2 rejects it.
static pcre2_code *compiled(const char *pattern, bool jit) {
    uint32_t options = PCRE2_UTF | PCRE2_DOLLAR_ENDONLY | PCRE2_MATCH_UNSET_BACKREF | PCRE2_ALLOW_EMPTY_CLASS;
    int error;
    PCRE2_SIZE at;
    pcre2_code *code = pcre2_compile((PCRE2_SPTR)pattern, PCRE2_ZERO_TERMINATED, options, &error, &at, NULL);
    if (!code || !jit || !pcre2_jit_compile(code, PCRE2_JIT_COMPLETE)) return code;
    pcre2_code_free(code);
    return NULL;
}

// The options of a search by the interpreter, or by what the compiler has made of the pattern.
static uint32_t options_of(bool jit) { return jit ? 0 : PCRE2_NO_JIT; }

// Returns the number of matches of a search for the first one, or -2 if a limit of PCRE2 is reached.
static int count_of(int groups) { return groups < 0 && groups != PCRE2_ERROR_NOMATCH ? -2 : groups > 0; }

// Compiles the pattern and searches for its first match, and prints the mean time.
static int compile(const char *pattern, const std::string &text, bool jit) {
    return repeat(1, [&] {
        pcre2_code *code = compiled(pattern, jit);
        if (!code) return -1;
        pcre2_match_data *data = pcre2_match_data_create_from_pattern(code, NULL);
        int groups = pcre2_match(code, (PCRE2_SPTR)text.data(), text.size(), 0, options_of(jit), data, NULL);
        pcre2_match_data_free(data);
        pcre2_code_free(code);
        return count_of(groups);
    });
}

// Searches for the first match, and prints the mean time. That the text is UTF-8 is tested once.
static int again(const pcre2_code *code, const std::string &text, bool jit) {
    pcre2_match_data *data = pcre2_match_data_create_from_pattern(code, NULL);
    uint32_t options = options_of(jit);
    return repeat(REPEATED, [&] {
        int groups = pcre2_match(code, (PCRE2_SPTR)text.data(), text.size(), 0, options, data, NULL);
        options |= PCRE2_NO_UTF_CHECK;
        return count_of(groups);
    });
}

int main(int, char **argv) {
    bool jit = !strcmp(argv[1], "jit");
    std::ifstream file(argv[2]);
    std::string text((std::istreambuf_iterator<char>(file)), std::istreambuf_iterator<char>());
    const char *pattern = argv[3], *mode = argv[4];
    if (!strcmp(mode, "compile")) return compile(pattern, text, jit);
    pcre2_code *code = compiled(pattern, jit);
    if (!code) return 1;
    if (!strcmp(mode, "again")) return again(code, text, jit);
    bool all = !strcmp(mode, "all");
    pcre2_match_data *data = pcre2_match_data_create_from_pattern(code, NULL);
    size_t count = 0, from = 0;
    uint32_t options = options_of(jit);
    auto started = std::chrono::steady_clock::now();
    clock_t before = clock();
    while (from <= text.size()) {
        int groups = pcre2_match(code, (PCRE2_SPTR)text.data(), text.size(), from, options, data, NULL);
        if (groups == PCRE2_ERROR_NOMATCH) break;
        if (groups < 0) return 2;
        count++;
        if (!all) break;
        options |= PCRE2_NO_UTF_CHECK;
        PCRE2_SIZE *span = pcre2_get_ovector_pointer(data);
        from = span[1];
        // behind an empty match the next character is skipped
        if (span[0] == span[1]) do from++; while (from < text.size() && (text[from] & 0xC0) == 0x80);
    }
    double used = double(clock() - before) / CLOCKS_PER_SEC;
    std::chrono::duration<double> taken = std::chrono::steady_clock::now() - started;
    printf("%zu %f %f\n", count, used, taken.count());
}
