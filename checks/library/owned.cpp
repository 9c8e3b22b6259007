/* The handle for C++ (include/tribes.h): no end at first, then one, which is freed at the end of its block. It prints what a call answers
   before and behind. */
#include "tribes.h"
#include <cstdio>

int main() {
    const tribes_config config = {0, 1000, 400, 1, 10};
    const tribes_field field = {0, 100, 7};
    const tribes_kind kind = {1, 5};
    const uint8_t block[] = {1};
    const uint32_t length = 1;
    tribes_owned server;
    tribes_reason why;
    tribes_count counts;
    int before = tribes_counts(&server, &counts);
    int made = tribes_server(&server, &config, &kind, 1, &field, 1, block, 1, &length, 1, &why);
    std::printf("%d %d %d\n", before, made, tribes_counts(&server, &counts));
}
