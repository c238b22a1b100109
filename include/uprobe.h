/* The C-callable functions of crates/capi, which `rt lib` there builds as out/libcapi.a. A byte slice is a pointer and a length. */
#ifndef UPROBE_H
#define UPROBE_H

#include <stddef.h>
#include <stdint.h>

/* 0, and *offset is where in the file the address lies; or 1 or 2, and *offset is as it was. */
uint32_t uprobe_offset(uint64_t instruction_address, uint64_t section_address, uint64_t section_offset,
                       uint64_t *offset);

/* 0, and *entries is the number of entries; 4 or 6, and *entry is the number of the entry at fault, from 1, or 0
   before the entries; or 5. Nothing else is written. */
uint32_t uprobe_cache_check(const uint8_t *cache, size_t cache_len, uint32_t *entries, uint32_t *entry);

enum uprobe_source { UPROBE_GIVEN = 1, UPROBE_MAPPED = 2, UPROBE_CACHED = 3 };

/* 0, and the path has *len bytes at *place in the target, the maps or the cache, as *source says; or the
   refusal's number, and what it carries: of 3 the line's place in *first and its length in *second, of 4 and 6
   the entry's number in *first. Nothing else is written. process is 0 for all processes. What could not be
   read is passed with a 0 before it. */
uint32_t uprobe_target(const uint8_t *target, size_t target_len, uint32_t process, uint32_t maps_readable,
                       const uint8_t *maps, size_t maps_len, uint32_t cache_readable, const uint8_t *cache,
                       size_t cache_len, uint32_t *source, uint64_t *place, uint64_t *len, uint64_t *first,
                       uint64_t *second);

#endif
