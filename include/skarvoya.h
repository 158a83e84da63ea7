/*
 * The LAN91C96, or the LAN91C94, as a driver sees it, and one record of the bench, for a program to link: libskarvoya.a (x86-64; `tools/build skarvoya`
 * proves it, writes it and prints its path). Each function does what docs/DRIVERS.md and docs/CHIP.md say; what it promises is in crates/skarvoya, and
 * is proved. The part is chosen at power-up; from then on the state says which one it is.
 *
 * Nothing is kept between calls, and nothing is allocated: state, memory and buffers are the caller's. Each call takes at most 1,024 bytes of stack, its
 * arguments included, and needs no function of a C library but memcpy and memset. The code is position independent, called as System V's ABI has it
 * (Linux, and gcc and clang on bare metal), and uses the registers of SSE2.
 *
 * What C may hand over
 *   - A pointer and, behind it, how many elements stand there: these must be readable, and writable unless the pointer is to const. Any number
 *     is answered: state and wire buffer must have exactly as many as below, memory exactly the part's (of a bench SKARVOYA_MEMORY, whichever
 *     part it is), or the call is refused with 16; output and line buffer at least as many, or it is refused with 15 (the output of a send that
 *     would be done, and of any record).
 *   - Whatever is in them. A state that no chip of either part can be in is refused with 16.
 *   - No null pointer, not with 0 elements either. Words are aligned to 2 bytes, sets to 4, `gathered`, `count` and `printed` to 8.
 *   - What one call is lent does not overlap, but that what is const may overlap with what is const; and no other thread touches it meanwhile.
 *   - Of a bool 0 or 1, as C has it; of every other number anything.
 *
 * A refusal changes nothing in state, memory and buffers. (A record that is refused is counted and has its line, but not one refused with 15 or 16.)
 */
#ifndef SKARVOYA_H
#define SKARVOYA_H

#include <stdbool.h>
#include <stddef.h>
#include <stdint.h>

#ifdef __cplusplus
extern "C" {
#endif

/* The parts, as power-up and a record of kind 9 name them, and the bytes of their memory. */
#define SKARVOYA_LAN91C94 0x94
#define SKARVOYA_LAN91C96 0x96
#define SKARVOYA_MEMORY_94 4608
#define SKARVOYA_MEMORY_96 6144

/* How many elements: a chip's state, which is as long for either part, room for the memory of either, and the bytes of a bench's buffers. */
#define SKARVOYA_WORDS 32
#define SKARVOYA_SETS 24
#define SKARVOYA_QUEUES 72
#define SKARVOYA_MEMORY 6144
#define SKARVOYA_WIRE 2048
#define SKARVOYA_OUTPUT 2052
#define SKARVOYA_LINE 40
#define SKARVOYA_RECORD 8

/*
 * An answer: the number of the refusal, 0 where it is done, and 16 bits of value below it. So what is done is its value, and what is above FFFFh is refused.
 * The value of a refusal is 0, but that of 13, 18 and 19 is the byte count in the packet.
 */
static inline unsigned skarvoya_refusal(uint32_t answer)
{
	return answer >> 16;
}

static inline unsigned skarvoya_value(uint32_t answer)
{
	return answer & 0xffff;
}

/*
 * The part at power-up, whatever was there: the value is 0. A byte that names no part is refused with 11. That comes before 16, here alone: only a part
 * says how long its memory must be.
 */
uint32_t skarvoya_power_up(uint8_t part, uint16_t *words, size_t words_n, uint32_t *sets, size_t sets_n, uint8_t *queues, size_t queues_n, uint8_t *memory, size_t memory_n);

/* An access at one of the sixteen I/O addresses, of a word or a byte: the value is what is read, 00xx of a byte; of a write 0. */
uint32_t skarvoya_read(uint16_t *words, size_t words_n, const uint32_t *sets, size_t sets_n, const uint8_t *queues, size_t queues_n, const uint8_t *memory, size_t memory_n,
		       bool word, uint8_t offset);
uint32_t skarvoya_write(uint16_t *words, size_t words_n, uint32_t *sets, size_t sets_n, uint8_t *queues, size_t queues_n, uint8_t *memory, size_t memory_n,
			bool word, uint8_t offset, uint16_t value);

/* A frame arrives, its FCS included: the value is what became of it, 0 to 5. */
uint32_t skarvoya_frame(uint16_t *words, size_t words_n, uint32_t *sets, size_t sets_n, uint8_t *queues, size_t queues_n, uint8_t *memory, size_t memory_n,
			const uint8_t *frame, size_t frame_n, bool alignment);

/* The packet at the head of TX has been sent: the value is how many bytes are put out, at the front of the output buffer. */
uint32_t skarvoya_send(uint16_t *words, size_t words_n, uint32_t *sets, size_t sets_n, uint8_t *queues, size_t queues_n, uint8_t *memory, size_t memory_n,
		       uint8_t *output, size_t output_n, uint8_t outcome, uint8_t collisions, uint8_t deferral);

/* The link is set down (0) or up (1), as by a cable that is pulled or plugged in; any other number is refused with 11. The value is 0. */
uint32_t skarvoya_link(uint16_t *words, size_t words_n, const uint32_t *sets, size_t sets_n, const uint8_t *queues, size_t queues_n, const uint8_t *memory, size_t memory_n,
		       uint8_t up);

/* The interrupt line: the value is 1 where it is up, else 0. */
uint32_t skarvoya_line(const uint16_t *words, size_t words_n, const uint32_t *sets, size_t sets_n, const uint8_t *queues, size_t queues_n);

/*
 * A record of the bench: the first eight bytes. It is answered, and its line, as the program bench prints it, is at the front of `line`; *printed says how long
 * it is. Fewer bytes get 17 and a line, as at the end of the program's input. Between records the caller keeps what is lent, with *gathered wire bytes (at most
 * 2,048) and *count records so far (below 2^64 - 1; else 16): both 0 at the start, beside a chip at power-up.
 * The memory is SKARVOYA_MEMORY bytes for either part: the part's are the first of them, and the others are neither looked at nor changed. Record 1 may be of
 * kind 9 and name a part, which then starts: its state, its bytes of memory all 0, and no wire bytes gathered. Later on kind 9 gets 11.
 * Refused with 16 or 15, which only what was lent can be the reason of, a record is not counted and has no line: *printed is 0.
 */
uint32_t skarvoya_record(uint16_t *words, size_t words_n, uint32_t *sets, size_t sets_n, uint8_t *queues, size_t queues_n, uint8_t *memory, size_t memory_n,
			 uint8_t *wire, size_t wire_n, size_t *gathered, uint8_t *output, size_t output_n, uint64_t *count,
			 const uint8_t *bytes, size_t bytes_n, uint8_t *line, size_t line_n, size_t *printed);

/* The same with what is lent in two structs, of which a program needs no more than the names. Each has room for either part. */
struct skarvoya_chip {
	uint16_t words[SKARVOYA_WORDS];
	uint32_t sets[SKARVOYA_SETS];
	uint8_t queues[SKARVOYA_QUEUES];
	uint8_t memory[SKARVOYA_MEMORY];
};

struct skarvoya_bench {
	struct skarvoya_chip chip;
	uint8_t wire[SKARVOYA_WIRE];
	size_t gathered;
	uint8_t output[SKARVOYA_OUTPUT];
	uint64_t count;
};

/* how many bytes of memory the chip's part has: 256 for each of its pages, as MIR tells. A state that names no part is refused, whatever it lends. */
static inline size_t skarvoya_chip_memory(const struct skarvoya_chip *c)
{
	size_t n = (size_t)256 * (c->words[4] & 0xff);

	return n < SKARVOYA_MEMORY ? n : SKARVOYA_MEMORY;
}

/* what a chip's struct lends, as arguments of the functions above */
#define SKARVOYA_STATE(c) (c)->words, SKARVOYA_WORDS, (c)->sets, SKARVOYA_SETS, (c)->queues, SKARVOYA_QUEUES
#define SKARVOYA_CHIP(c) SKARVOYA_STATE(c), (c)->memory, skarvoya_chip_memory(c)

static inline uint32_t skarvoya_chip_power_up(struct skarvoya_chip *c, uint8_t part)
{
	return skarvoya_power_up(part, SKARVOYA_STATE(c), c->memory, part == SKARVOYA_LAN91C94 ? SKARVOYA_MEMORY_94 : SKARVOYA_MEMORY_96);
}

static inline uint32_t skarvoya_chip_read(struct skarvoya_chip *c, bool word, uint8_t offset)
{
	return skarvoya_read(SKARVOYA_CHIP(c), word, offset);
}

static inline uint32_t skarvoya_chip_write(struct skarvoya_chip *c, bool word, uint8_t offset, uint16_t value)
{
	return skarvoya_write(SKARVOYA_CHIP(c), word, offset, value);
}

static inline uint32_t skarvoya_chip_frame(struct skarvoya_chip *c, const uint8_t *frame, size_t n, bool alignment)
{
	return skarvoya_frame(SKARVOYA_CHIP(c), frame, n, alignment);
}

static inline uint32_t skarvoya_chip_send(struct skarvoya_chip *c, uint8_t *output, size_t n, uint8_t outcome, uint8_t collisions, uint8_t deferral)
{
	return skarvoya_send(SKARVOYA_CHIP(c), output, n, outcome, collisions, deferral);
}

static inline uint32_t skarvoya_chip_link(struct skarvoya_chip *c, uint8_t up)
{
	return skarvoya_link(SKARVOYA_CHIP(c), up);
}

static inline uint32_t skarvoya_chip_line(const struct skarvoya_chip *c)
{
	return skarvoya_line(SKARVOYA_STATE(c));
}

/* as the program bench starts: the LAN91C96, and the first record may ask for the other */
static inline uint32_t skarvoya_bench_power_up(struct skarvoya_bench *b)
{
	b->gathered = 0;
	for (size_t i = 0; i < SKARVOYA_OUTPUT; i++)
		b->output[i] = 0;
	b->count = 0;
	return skarvoya_chip_power_up(&b->chip, SKARVOYA_LAN91C96);
}

static inline uint32_t skarvoya_bench_record(struct skarvoya_bench *b, const uint8_t *bytes, size_t n, uint8_t *line, size_t line_n, size_t *printed)
{
	return skarvoya_record(SKARVOYA_STATE(&b->chip), b->chip.memory, SKARVOYA_MEMORY, b->wire, SKARVOYA_WIRE, &b->gathered, b->output, SKARVOYA_OUTPUT, &b->count,
			       bytes, n, line, line_n, printed);
}

#ifdef __cplusplus
}
#endif

#endif
