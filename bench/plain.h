/* The six calls, tallies of blocks and their joins, and CO2 windows in plain C, by hand: what the core is measured against, joins left
 * out, and a second reckoning for long runs. The calls and their answers are those of rde.h on any list of calls from a clear, the data
 * structures those of the core; the bytes of the area are its own, without a format mark. */
#ifndef PLAIN_H
#define PLAIN_H

#include "rde.h"

#define PLAIN_AREA_LEN RDE_AREA_LEN

rde_answer plain_clear(uint8_t *area, size_t area_len);
rde_answer plain_declare(uint8_t *area, size_t area_len, const uint8_t *record, size_t record_len);
rde_answer plain_sample(uint8_t *area, size_t area_len, const uint8_t *record, size_t record_len);
rde_answer plain_close(uint8_t *area, size_t area_len);
rde_answer plain_read(const uint8_t *area, size_t area_len, uint32_t window);
rde_verdict_answer plain_verdict(const uint8_t *area, size_t area_len);

/* The tally of a block of samples; the refusal's number, or 0. */
uint32_t plain_tally(const uint8_t *block, size_t len, uint8_t *out, size_t out_len);

/* Two tallies joined; the refusal's number, or 0. */
uint32_t plain_join(const uint8_t *a, size_t a_len, const uint8_t *b, size_t b_len, uint8_t *out, size_t out_len);

/* The CO2 windows of a block of samples, as rde_co2 answers. */
rde_co2_answer plain_co2(const uint8_t *block, size_t len, const uint8_t *reference, size_t reference_len);

#endif
