/* The calls of libc_interface.a (crates/c_interface). A slice passes as a pointer and its length in elements: valid for that length, aligned, not null even
   where the length is 0, and apart from every other. docs/PROMISES.md says what the calls promise, docs/REFUSALS.md what the numbers of refusals mean. */
#ifndef FALDWERN_H
#define FALDWERN_H

#include <stddef.h>
#include <stdint.h>

/* Whether a text is a hall file. told: number and place of the refusal, or 0 and 0. */
void faldwern_read(const uint8_t *text, size_t text_len, size_t *told, size_t told_len);

/* The best response to a leader plan in the task that a text says. told: number and place; 1 where the answer is none and else 0; minutes; steps. */
void faldwern_response(
    const uint8_t *text, size_t text_len, const uint8_t *leader_plan, size_t leader_plan_len,
    uint64_t *states, size_t states_len, uint16_t (*index)[4], size_t index_len,
    uint16_t (*links)[64], size_t links_len, uint64_t (*rows)[8], size_t rows_len,
    uint8_t *plan, size_t plan_len, size_t *told, size_t told_len);

/* The report of the front of that task, with room for so many entries. told: number and place; entries; bytes of output. */
void faldwern_report(
    const uint8_t *text, size_t text_len,
    uint64_t *states, size_t states_len, uint16_t (*index)[4], size_t index_len,
    uint16_t (*links)[64], size_t links_len, uint64_t (*rows)[8], size_t rows_len,
    size_t room, uint8_t *plans, size_t plans_len, uint8_t *output, size_t output_len, size_t *told, size_t told_len);

#endif
