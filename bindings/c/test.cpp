// Tests that C++ compiles and links both headers: the calls of each, and the functions that regress_front.h defines.

#include <cstdio>
#include <cstring>

#include <regress.h>
#include <regress_front.h>

static bool finds() {
    const char pattern[] = "(b)|c";
    const uint8_t text[] = {'a', 'b', 'c'};
    regress_regex regex;
    regress_limits limits = {};
    uint32_t kind;
    size_t position, needed, spans[4];
    if (regress_compile(reinterpret_cast<const uint8_t *>(pattern), std::strlen(pattern), REGRESS_SMALL_TABLE, &limits,
                        &regex, &kind, &position) != REGRESS_OK) {
        return false;
    }
    bool first = regress_find(&regex, text, 3, 0, spans, 4, &needed) == REGRESS_OK && needed == 4 && spans[0] == 1
                 && spans[1] == 2 && spans[2] == 1 && spans[3] == 2;
    bool second = regress_find(&regex, text, 3, 2, spans, 4, &needed) == REGRESS_OK && spans[0] == 2
                  && spans[2] == REGRESS_UNSET;
    bool all = regress_find_all(&regex, text, 3, 2, spans, 4, &needed) == REGRESS_OK && needed == 4 && spans[0] == 2;
    regress_matches matches;
    bool list = regress_matches_new(&regex, text, 3, 2, &matches) == REGRESS_OK && regress_matches_left(&matches) == 4
                && regress_matches_next(&matches, spans, 4, &needed) == REGRESS_OK && spans[0] == 2
                && regress_matches_next(&matches, spans, 4, &needed) == REGRESS_NO_MATCH;
    regress_matches_free(&matches);
    bool linear = regress_is_linear(&regex) == 1 && regress_nonlinear(&regex) == 0;
    regress_free(&regex);
    return first && second && all && list && linear && regress_abi_version() == REGRESS_ABI_VERSION;
}

static bool parses() {
    uint32_t words[64], kind;
    size_t needed, spans_needed, position;
    regress_front_span spans[8];
    char text[64];
    return regress_front_parse_utf8("a", 1, REGRESS_FRONT_SMALL_TABLE, REGRESS_FRONT_PARSED, words, 64, &needed, &kind,
                                    &position) == REGRESS_FRONT_OK
           && regress_front_skip(words, needed) == needed
           && std::strcmp(regress_front_node_name(words[0]), "Cat") == 0
           && regress_front_fault_utf8(")", 1, REGRESS_FRONT_SMALL_TABLE, text, sizeof text, &needed, &kind, &position)
                  == REGRESS_FRONT_SYNTAX
           && kind == REGRESS_FRONT_KIND_UNBALANCED_PARENTHESIS
           && regress_front_parse_utf8_with_spans("a", 1, REGRESS_FRONT_SMALL_TABLE, words, 64, &needed, spans, 8,
                                                  &spans_needed, &kind, &position) == REGRESS_FRONT_OK
           && spans_needed == 3 && spans[1].start == 0 && spans[1].end == 1;
}

int main() {
    if (!finds() || !parses()) {
        std::fputs("the calls from C++ have another result\n", stderr);
        return 1;
    }
    std::puts("C++ compiles and links the headers");
    return 0;
}
