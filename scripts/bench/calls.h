// What is timed. Each call takes a text, does its task once, and as often again as `more` says; it answers UINT64_MAX where the
// text wasn't read.
#ifndef CALLS_H
#define CALLS_H

#include <stddef.h>
#include <stdint.h>

// of crates/bench_calls
uint64_t bench_read(const uint8_t *text, size_t length);
uint64_t bench_rows(const uint8_t *text, size_t length, uint32_t more);
uint64_t bench_defaults(const uint8_t *text, size_t length, uint32_t more);
uint64_t bench_rounds(const uint8_t *text, size_t length, uint32_t more);
uint64_t bench_negotiate(const uint8_t *text, size_t length, uint32_t more);
uint64_t bench_exchange(const uint8_t *text, size_t length, uint32_t more);
uint64_t bench_answer(const uint8_t *text, size_t length, uint32_t more);
uint64_t bench_print(const uint8_t *text, size_t length, uint32_t more);
uint64_t bench_sources(const uint8_t *text, size_t length, uint32_t more);
uint64_t bench_candidates(const uint8_t *text, size_t length, uint32_t more);
uint64_t bench_consistency(const uint8_t *text, size_t length, uint32_t more);

// of floor.c
uint64_t floor_lines(const uint8_t *text, size_t length, uint32_t more);
uint64_t floor_items(const uint8_t *text, size_t length, uint32_t more);

// of other libraries, where they are installed
uint64_t gstreamer_read(const uint8_t *text, size_t length, uint32_t more);
uint64_t sofia_read(const uint8_t *text, size_t length, uint32_t more);

#endif
