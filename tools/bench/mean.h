// How count_pcre2.cc and count_re2.cc measure a search that takes less time than a tick of the clock.
#include <cstddef>
#include <cstdio>
#include <ctime>

// How long a search is run again and again, in seconds.
const double SPENT = 0.05;
// How often it is run between two looks at the clock, where it takes little time.
const size_t REPEATED = 100;

// Runs a search again and again, `times` times between two looks at the clock, and prints the number of matches and the
// mean time. The search returns the number of matches, or if it fails minus the status of the program. Returns the status.
template <typename Search>
static int repeat(size_t times, Search search) {
    int found = 0;
    size_t runs = 0;
    double used = 0;
    for (clock_t before = clock(); used < SPENT; used = double(clock() - before) / CLOCKS_PER_SEC, runs += times)
        for (size_t i = 0; i < times; i++) {
            found = search();
            if (found < 0) return -found;
        }
    printf("%d %.9f %.9f\n", found, used / runs, used / runs);
    return 0;
}
