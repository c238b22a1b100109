/* Calls each C-callable function, and ends with status 0 where all answer as the documents say. */
#include "uprobe.h"
#include <stdio.h>
#include <string.h>

static const uint8_t *bytes(const char *text) { return (const uint8_t *)text; }

int main(void) {
    uint64_t offset = 7, place = 7, len = 7;
    uint64_t first = 7, second = 7;
    uint32_t source = 7, entries = 7, entry = 7;
    const char *line = "7f10-7f20 r-xp 0 08:02 7 /lib/libotp.so.4";
    const char *bad = "1-2-3 r-xp 0 08:02 7";
    int wrong = 0;

    wrong += !(uprobe_offset(0x401136, 0x401000, 0x1000, &offset) == 0 && offset == 0x1136);
    wrong += !(uprobe_offset(0x400fff, 0x401000, 0x1000, &offset) == 1 && offset == 0x1136);
    wrong += !(uprobe_offset(UINT64_MAX, 0, 1, &offset) == 2 && offset == 0x1136);
    wrong += !(uprobe_cache_check(bytes("glibc"), 5, &entries, &entry) == 4 && entries == 7 && entry == 0);
    wrong += !(uprobe_cache_check(bytes("glibc-ld.so.cache2.0"), 20, &entries, &entry) == 5 && entries == 7 && entry == 0);
    wrong += !(uprobe_cache_check(bytes("glibc-ld.so.cache1.1\1\0\0\0"), 24, &entries, &entry) == 4 && entries == 7 && entry == 1);
    wrong += !(uprobe_target(bytes("libotp.so"), 9, 812, 1, bytes(line), strlen(line), 0, bytes(""), 0, &source, &place, &len, &first, &second) == 0 &&
               source == UPROBE_MAPPED && place == 25 && len == 16 && first == 7 && second == 7);
    wrong += !(uprobe_target(bytes("/a/b"), 4, 0, 0, bytes(""), 0, 0, bytes(""), 0, &source, &place, &len, &first, &second) == 0 &&
               source == UPROBE_GIVEN && place == 0 && len == 4);
    wrong += !(uprobe_target(bytes("libotp"), 6, 812, 1, bytes(bad), strlen(bad), 0, bytes(""), 0, &source, &place, &len, &first, &second) == 3 &&
               source == UPROBE_GIVEN && place == 0 && len == 4 && first == 0 && second == 20);
    wrong += !(uprobe_target(bytes("libotp"), 6, 812, 0, bytes(""), 0, 0, bytes(""), 0, &source, &place, &len, &first, &second) == 7);
    wrong += !(uprobe_target(bytes("libotp"), 6, 0, 0, bytes(""), 0, 0, bytes(""), 0, &source, &place, &len, &first, &second) == 8);
    wrong += !(uprobe_target(bytes("libotp"), 6, 0, 0, bytes(""), 0, 1, bytes("glibc-ld.so.cache1.1\0\0\0\0"), 24, &source, &place, &len, &first, &second) == 9);
    printf("%d of 12 answers are wrong\n", wrong);
    return wrong != 0;
}
