/* The second program's side of host/tejborun.h: the same functions under other names. */
#ifndef JUDGE_H
#define JUDGE_H

#include <stddef.h>
#include <stdint.h>

size_t judge_build(const uint8_t *sheet, size_t sheet_bytes, uint8_t *output, size_t output_bytes);
uint32_t judge_steps(const uint8_t *sheet, size_t sheet_bytes, uint64_t *result, size_t result_numbers);
uint32_t judge_meaning(const uint8_t *sheet, size_t sheet_bytes, uint32_t *data, size_t data_words, uint8_t *code, size_t code_bytes, uint64_t *log,
                       size_t log_numbers, uint64_t used, uint64_t *result, size_t result_numbers);
uint32_t judge_salvage(const uint8_t *sheet, size_t sheet_bytes, uint8_t *output, size_t output_bytes, uint64_t *ranges, size_t ranges_numbers,
                       uint64_t *result, size_t result_numbers);
uint32_t judge_reset(uint32_t *block, size_t block_words);
uint32_t judge_start(uint32_t *block, size_t block_words, uint32_t channel, uint32_t tadr, uint32_t tte);
uint32_t judge_set(uint32_t *block, size_t block_words, uint32_t unit, uint32_t number, uint32_t value);
uint32_t judge_run(const uint8_t *main, size_t main_bytes, uint32_t *data, size_t data_words, uint8_t *code, size_t code_bytes, uint64_t *log,
                   size_t log_numbers, uint32_t *block, size_t block_words, uint64_t allowance, uint64_t *result, size_t result_numbers);
uint32_t judge_why(const uint8_t *main, size_t main_bytes, const uint32_t *data, size_t data_words, const uint8_t *code, size_t code_bytes, const uint64_t *log,
                   size_t log_numbers, const uint32_t *block, size_t block_words, uint64_t *result, size_t result_numbers);
uint32_t judge_build_and_run(const uint8_t *sheet, size_t sheet_bytes, uint8_t *main, size_t main_bytes, uint32_t address, uint32_t *data, size_t data_words,
                             uint8_t *code, size_t code_bytes, uint64_t *log, size_t log_numbers, uint32_t *block, size_t block_words, uint64_t allowance,
                             uint64_t *result, size_t result_numbers);
uint32_t judge_check(const uint8_t *sheet, size_t sheet_bytes, const uint8_t *main, size_t main_bytes, uint32_t *data, size_t data_words, uint8_t *code,
                     size_t code_bytes, uint64_t *log, size_t log_numbers, uint64_t allowance, uint64_t *result, size_t result_numbers);
uint32_t judge_add_totals(uint64_t *totals, size_t totals_numbers, const uint64_t *counts, size_t counts_numbers);
uint32_t judge_nop_share(const uint64_t *totals, size_t totals_numbers, uint64_t *result, size_t result_numbers);
uint32_t judge_compare(const uint32_t *data1_a, size_t data1_a_words, const uint8_t *code1_a, size_t code1_a_bytes, const uint32_t *data0_a,
                       size_t data0_a_words, const uint8_t *code0_a, size_t code0_a_bytes, const uint64_t *log_a, size_t log_a_numbers, uint64_t used_a,
                       const uint32_t *data1_b, size_t data1_b_words, const uint8_t *code1_b, size_t code1_b_bytes, const uint32_t *data0_b,
                       size_t data0_b_words, const uint8_t *code0_b, size_t code0_b_bytes, const uint64_t *log_b, size_t log_b_numbers, uint64_t used_b,
                       uint32_t parts, uint64_t *result, size_t result_numbers);
uint32_t judge_compare_within(const uint32_t *data1_a, size_t data1_a_words, const uint8_t *code1_a, size_t code1_a_bytes, const uint32_t *data0_a, size_t
                              data0_a_words, const uint8_t *code0_a, size_t code0_a_bytes, const uint64_t *log_a, size_t log_a_numbers, uint64_t used_a, const
                              uint32_t *data1_b, size_t data1_b_words, const uint8_t *code1_b, size_t code1_b_bytes, const uint32_t *data0_b, size_t
                              data0_b_words, const uint8_t *code0_b, size_t code0_b_bytes, const uint64_t *log_b, size_t log_b_numbers, uint64_t used_b,
                              uint32_t parts, uint64_t first, uint64_t last, uint64_t *result, size_t result_numbers);

#endif
