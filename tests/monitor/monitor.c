/*
 * A monitor that runs the library on a stack of exactly 1,024 bytes. The bytes below it hold a pattern that must still be there at the end, and so do the
 * stack's own bytes before each call, which tells how much of it a call took. No header and no function of a C library is used but read, write and what
 * the library needs: so nothing else runs on that stack. It says on standard error how much the deepest call took, and ends with 1 where something is wrong.
 * usage: monitor records < RECORDS    each record by skarvoya_record: the lines of bench
 *        monitor calls < RECORDS      each record by the call that it stands for: the lines of watch
 *        monitor refusals             of either part, what the header says of short lengths, of states that no chip can be in, and of a part asked for
 */
#include "skarvoya.h"

long read(int, void *, unsigned long);
long write(int, const void *, unsigned long);
void _exit(int);

enum { STACK = 1024, BELOW = 65536, PATTERN = 0xa5 };

static unsigned char area[BELOW + STACK] __attribute__((aligned(4096)));
static unsigned deepest;

static void say(const char *text)
{
	unsigned long n = 0;

	while (text[n])
		n++;
	write(2, text, n);
}

static void fail(const char *why)
{
	say("monitor: ");
	say(why);
	say("\n");
	_exit(1);
}

static bool same(const void *a, const void *b, size_t n)
{
	const unsigned char *x = a, *y = b;

	for (size_t i = 0; i < n; i++)
		if (x[i] != y[i])
			return false;
	return true;
}

static char *decimal(char *at, uint64_t x)
{
	char digits[20];
	int n = 0;

	do
		digits[n++] = '0' + x % 10;
	while (x /= 10);
	while (n)
		*at++ = digits[--n];
	return at;
}

static char *hex(char *at, unsigned x, int digits)
{
	while (digits--)
		*at++ = "0123456789abcdef"[x >> 4 * digits & 15];
	return at;
}

/* f(argument) with the stack pointer at `top`; the call's own return address is the first thing on that stack */
void on_stack(void (*f)(void *), void *argument, void *top);
__asm__(".text\n"
	"on_stack:\n"
	"	push %rbp\n"
	"	mov %rsp, %rbp\n"
	"	mov %rdx, %rsp\n"
	"	mov %rdi, %rax\n"
	"	mov %rsi, %rdi\n"
	"	call *%rax\n"
	"	mov %rbp, %rsp\n"
	"	pop %rbp\n"
	"	ret\n");

/* runs f on the small stack, and looks at how far it got */
static void small(void (*f)(void *), void *argument)
{
	unsigned untouched = 0;

	for (unsigned i = 0; i < STACK; i++)
		area[BELOW + i] = PATTERN;
	on_stack(f, argument, area + BELOW + STACK);
	while (untouched < STACK && area[BELOW + untouched] == PATTERN)
		untouched++;
	if (STACK - untouched > deepest)
		deepest = STACK - untouched;
}

/* what a call is lent, and the call; `n` is how many elements each pointer is said to have: memory of a chip, room for it of a bench */
static struct lent {
	struct skarvoya_bench b;
	struct { size_t words, sets, queues, memory, room, wire, output, frame, bytes, line; } n;
	bool flag;
	uint8_t part, offset, outcome, collisions, deferral, up, bytes[8], line[64];
	uint16_t value;
	size_t printed;
	uint32_t answer;
} l, before;

#define STATE l.b.chip.words, l.n.words, l.b.chip.sets, l.n.sets, l.b.chip.queues, l.n.queues
#define CHIP STATE, l.b.chip.memory, l.n.memory

static void power_up(void *none) { l.answer = skarvoya_power_up(l.part, CHIP); }
static void access_read(void *none) { l.answer = skarvoya_read(CHIP, l.flag, l.offset); }
static void access_write(void *none) { l.answer = skarvoya_write(CHIP, l.flag, l.offset, l.value); }
static void frame(void *none) { l.answer = skarvoya_frame(CHIP, l.b.wire, l.n.frame, l.flag); }
static void send(void *none) { l.answer = skarvoya_send(CHIP, l.b.output, l.n.output, l.outcome, l.collisions, l.deferral); }
static void link_set(void *none) { l.answer = skarvoya_link(CHIP, l.up); }
static void line(void *none) { l.answer = skarvoya_line(STATE); }
static void record(void *none)
{
	l.answer = skarvoya_record(STATE, l.b.chip.memory, l.n.room, l.b.wire, l.n.wire, &l.b.gathered, l.b.output, l.n.output, &l.b.count,
				   l.bytes, l.n.bytes, l.line, l.n.line, &l.printed);
}

static void right_lengths(void)
{
	l.n.words = SKARVOYA_WORDS, l.n.sets = SKARVOYA_SETS, l.n.queues = SKARVOYA_QUEUES;
	l.n.memory = l.part == SKARVOYA_LAN91C94 ? SKARVOYA_MEMORY_94 : SKARVOYA_MEMORY_96, l.n.room = SKARVOYA_MEMORY;
	l.n.wire = SKARVOYA_WIRE, l.n.output = SKARVOYA_OUTPUT, l.n.frame = 0, l.n.bytes = SKARVOYA_RECORD, l.n.line = SKARVOYA_LINE;
}

/* MIR and the memory are those of the part at power-up, and the bytes behind its memory are as they were */
static void started(void)
{
	const uint8_t *memory = l.b.chip.memory;

	if (l.b.chip.words[4] != (l.part == SKARVOYA_LAN91C94 ? 0x1212 : 0x1818))
		fail("the part at power-up");
	for (size_t i = 0; i < SKARVOYA_MEMORY; i++)
		if (memory[i] != (i < l.n.memory ? 0 : PATTERN))
			fail("the memory at power-up");
}

/* the part at power-up, from bytes that are not 0; those behind its memory stay */
static void start(uint8_t part)
{
	unsigned char *bytes = (unsigned char *)&l.b;

	for (size_t i = 0; i < sizeof l.b; i++)
		bytes[i] = PATTERN;
	l.part = part;
	right_lengths();
	l.b.gathered = 0;
	l.b.count = 0;
	small(power_up, 0);
	if (l.answer != 0)
		fail("power-up is refused");
	started();
}

static char out[1 << 16];
static size_t filled;

static void flush(void)
{
	for (size_t at = 0; at < filled;) {
		long n = write(1, out + at, filled - at);
		if (n <= 0)
			fail("standard output cannot be written");
		at += n;
	}
	filled = 0;
}

static size_t next_record(uint8_t bytes[8])
{
	size_t n = 0;

	while (n < 8) {
		long got = read(0, bytes + n, 8 - n);
		if (got <= 0)
			break;
		n += got;
	}
	return n;
}

/* ---- records: the lines are the library's */
static void by_records(void)
{
	while ((l.n.bytes = next_record(l.bytes)) != 0) {
		small(record, 0);
		if (sizeof out - filled < l.printed)
			flush();
		for (size_t i = 0; i < l.printed; i++)
			out[filled++] = l.line[i];
		if (l.n.bytes < 8)
			break;
	}
}

/* ---- calls: wire bytes are gathered and lines are written here */
static uint32_t called(const uint8_t *bytes)
{
	switch (bytes[0]) {
	case 1:
	case 2:
		l.flag = bytes[0] == 2, l.offset = bytes[1];
		small(access_read, 0);
		return l.answer;
	case 3:
	case 4:
		l.flag = bytes[0] == 4, l.offset = bytes[1], l.value = bytes[2] | bytes[3] << 8;
		small(access_write, 0);
		return l.answer;
	case 5:
		if (bytes[1] < 1 || bytes[1] > 6 || l.b.gathered + bytes[1] > 2048)
			return 11 << 16;
		for (unsigned i = 0; i < bytes[1]; i++)
			l.b.wire[l.b.gathered++] = bytes[2 + i];
		return 0;
	case 6:
		l.flag = bytes[1] & 2, l.n.frame = l.b.gathered, l.b.gathered = 0;
		small(frame, 0);
		return l.answer;
	case 7:
		l.outcome = bytes[1], l.collisions = bytes[2], l.deferral = bytes[3];
		small(send, 0);
		return l.answer;
	case 8:
		l.up = bytes[1];
		small(link_set, 0);
		return l.answer;
	case 9:
		if (l.b.count != 0 || (bytes[1] != SKARVOYA_LAN91C94 && bytes[1] != SKARVOYA_LAN91C96))
			return 11 << 16;
		l.part = bytes[1], l.b.gathered = 0;
		right_lengths();
		small(power_up, 0);
		return l.answer;
	}
	return 17 << 16;
}

static void by_calls(void)
{
	size_t n;

	while ((n = next_record(l.bytes)) != 0) {
		uint32_t answer = n < 8 ? 17 << 16 : called(l.bytes);
		char *at;

		if (sizeof out - filled < 8192)
			flush();
		at = decimal(out + filled, ++l.b.count);
		*at++ = ' ';
		at = decimal(at, skarvoya_refusal(answer));
		*at++ = ' ';
		at = hex(at, skarvoya_value(answer), 4);
		small(line, 0);
		if (l.answer > 1)
			fail("the line is refused");
		*at++ = ' ';
		at = decimal(at, l.answer);
		if (n == 8 && l.bytes[0] == 7 && skarvoya_refusal(answer) == 0) {
			*at++ = ' ';
			for (unsigned i = 0; i < skarvoya_value(answer); i++)
				at = hex(at, l.b.output[i], 2);
		}
		*at++ = '\n';
		filled = at - out;
		if (n < 8)
			break;
	}
}

/* ---- refusals */
static unsigned tried;

/* the call is answered so, and nothing changes of what it is lent; of a record there is no line */
static void expect(const char *what, void (*f)(void *), uint32_t answer)
{
	before = l;
	l.printed = 1;
	small(f, 0);
	if (l.answer != answer || !same(&l.b, &before.b, sizeof l.b) || !same(l.line, before.line, sizeof l.line) || l.printed != (f == record ? 0 : 1))
		fail(what);
	tried++;
}

/* the functions that are lent a state and the memory of its part */
static void by_each(const char *what, uint32_t answer)
{
	expect(what, access_read, answer);
	expect(what, access_write, answer);
	expect(what, frame, answer);
	expect(what, send, answer);
	expect(what, link_set, answer);
}

enum { OF_STATE, OF_MEMORY, OF_BENCH, OF_ROOM };

/* no element, one too few, and, but for room, one too many; then the right number again */
static void lengths(const char *what, size_t *n, int sort)
{
	size_t right = *n, wrong[] = { 0, right - 1, right + 1 };

	for (int i = 0; i < (sort == OF_ROOM ? 2 : 3); i++) {
		*n = wrong[i];
		if (sort == OF_STATE || sort == OF_MEMORY) {
			by_each(what, 16 << 16);
			expect(what, power_up, 16 << 16);
		}
		if (sort != OF_MEMORY)
			expect(what, record, (sort == OF_ROOM ? 15 : 16) << 16);
		if (sort == OF_STATE)
			expect(what, line, 16 << 16);
	}
	*n = right;
}

static void damaged(const char *what)
{
	by_each(what, 16 << 16);
	expect(what, record, 16 << 16);
	expect(what, line, 16 << 16);
}

/* what only one part has, or none */
static void other_parts(void)
{
	static const uint8_t none[] = { 0x00, 0x12, 0x18, 0x93, 0x95, 0x97, 0xff };
	uint8_t part = l.part;
	uint16_t mir = l.b.chip.words[4];
	size_t n = l.n.memory;

	l.n.memory = SKARVOYA_MEMORY_94 + SKARVOYA_MEMORY_96 - n;
	by_each("the memory of the other part", 16 << 16);
	expect("power-up beside the memory of the other part", power_up, 16 << 16);
	l.n.memory = n;

	/* whatever the lengths: a part that is none is told first */
	for (size_t i = 0; i < sizeof none; i++) {
		l.part = none[i];
		expect("a part that is none", power_up, 11 << 16);
		l.n.words--, l.n.memory--;
		expect("a part that is none, beside wrong lengths", power_up, 11 << 16);
		l.n.words++, l.n.memory++;
	}
	l.part = part;

	/* MIR's low byte: the other part's, beside its own memory and beside the other's, and that of no part */
	l.b.chip.words[4] = mir ^ 0x12 ^ 0x18;
	damaged("a state that names the other part");
	l.n.memory = SKARVOYA_MEMORY_94 + SKARVOYA_MEMORY_96 - n;
	damaged("a state that names the other part, beside its memory");
	l.n.memory = n;
	l.b.chip.words[4] = mir ^ 0x01;
	damaged("a state that names no part");
	l.b.chip.words[4] = mir;

	if (part == SKARVOYA_LAN91C96)
		return;
	l.b.chip.sets[18] = 1 << 17; /* a free page, in a packet that the part has not */
	damaged("a packet behind the part's");
	l.b.chip.sets[18] = 0;
	l.b.chip.sets[17] = 1 << 18; /* a page that it has not */
	damaged("a page behind the part's");
	l.b.chip.sets[17] = 0;
}

/* a record of kind 9 is answered so, with this line */
static void asks(uint8_t part, uint32_t answer, const char *text)
{
	size_t n = 0;

	while (text[n])
		n++;
	l.bytes[0] = 9, l.bytes[1] = part;
	small(record, 0);
	if (l.answer != answer || l.printed != n || !same(l.line, text, n))
		fail("a record of kind 9");
	tried++;
}

/* a bench of this part is asked for the other as its first record, which starts it; later on and for no part it is refused, and the bench stays */
static void asked_for(uint8_t part)
{
	start(part);
	l.b.gathered = 7;
	for (size_t i = 0; i < SKARVOYA_MEMORY; i++)
		l.b.chip.memory[i] = PATTERN;
	l.b.count = 1;
	before = l;
	asks(part, 11 << 16, "2 11 0000\n");
	l.b.count = 0;
	asks(0x95, 11 << 16, "1 11 0000\n");
	if (l.b.gathered != 7 || l.b.count != 1 || !same(&l.b.chip, &before.b.chip, sizeof l.b.chip))
		fail("a bench after a part that it does not get");
	l.b.count = 0;
	l.part = part ^ SKARVOYA_LAN91C94 ^ SKARVOYA_LAN91C96;
	right_lengths();
	asks(l.part, 0, "1 0 0000\n");
	started();
	if (l.b.gathered != 0 || l.b.count != 1 || !same(l.b.output, before.b.output, sizeof l.b.output))
		fail("a bench after the part that it asks for");
	asks(l.part, 11 << 16, "2 11 0000\n");
}

/* a packet of one page, loaded with 12 bytes and enqueued, so that a send would be done */
static void enqueue(void)
{
	static const uint8_t writes[][4] = {
		{3, 0x00, 0x01, 0}, {3, 0x0e, 2, 0}, {3, 0x00, 0x20, 0}, {3, 0x02, 0, 0}, {4, 0x06, 0x00, 0x40},
		{4, 0x08, 0, 0}, {4, 0x08, 12, 0}, {4, 0x08, 0xff, 0xff}, {4, 0x08, 0xff, 0xff}, {4, 0x08, 0xff, 0xff}, {4, 0x08, 0, 0}, {3, 0x00, 0xc0, 0},
	};

	for (size_t i = 0; i < sizeof writes / sizeof *writes; i++)
		if (called(writes[i]) != 0)
			fail("a write is refused");
}

static void refusals_of(uint8_t part)
{
	start(part);
	enqueue();
	lengths("a state of other than 32 words", &l.n.words, OF_STATE);
	lengths("a state of other than 24 sets", &l.n.sets, OF_STATE);
	lengths("a state of other than 72 bytes of queues", &l.n.queues, OF_STATE);
	lengths("a memory of other than the part's bytes", &l.n.memory, OF_MEMORY);
	lengths("a bench's memory of other than 6,144 bytes", &l.n.room, OF_BENCH);
	lengths("a wire buffer of other than 2,048 bytes", &l.n.wire, OF_BENCH);
	lengths("a line of fewer than 40 bytes", &l.n.line, OF_ROOM);
	lengths("an output of fewer than 2,052 bytes", &l.n.output, OF_ROOM);
	l.n.output--;
	expect("a send to an output of 2,051 bytes", send, 15 << 16);
	l.n.output++;

	l.b.gathered = 2049;
	expect("2,049 wire bytes gathered", record, 16 << 16);
	l.b.gathered = (size_t)-1;
	expect("2^64 - 1 wire bytes gathered", record, 16 << 16);
	l.b.gathered = 0;
	l.b.count = -1;
	expect("2^64 - 1 records counted", record, 16 << 16);
	l.b.count = 0;

	l.b.chip.words[4] ^= 0x100; /* MIR: a page more is free than is */
	damaged("a wrong free count");
	l.b.chip.words[4] ^= 0x100;
	l.b.chip.sets[5] = 1; /* page 0, which packet 0 has */
	damaged("a page in two packets");
	l.b.chip.sets[5] = 0;
	l.b.chip.queues[71] = 1; /* behind the last entry */
	damaged("a byte behind the queues' entries");
	l.b.chip.queues[71] = 0;

	l.b.chip.words[15] = 4; /* the link and its change are bits 0 and 1 */
	damaged("a third bit of the link");
	l.b.chip.words[15] = 0;
	for (l.up = 2; l.up != 0; l.up = l.up == 2 ? 255 : 0)
		expect("a link neither down nor up", link_set, 11 << 16);
	other_parts();

	/* a record of seven bytes gets 17 and its line, as does one of none; and the chip stays */
	for (l.n.bytes = 7;; l.n.bytes = 0) {
		before = l;
		small(record, 0);
		if (l.answer != 17 << 16 || l.b.count != before.b.count + 1 || !same(&l.b.chip, &before.b.chip, sizeof l.b.chip))
			fail("a record cut short");
		if (l.printed != 10 || !same(l.line, l.b.count == 1 ? "1 17 0000\n" : "2 17 0000\n", 10))
			fail("the line of a record cut short");
		tried++;
		if (l.n.bytes == 0)
			break;
	}
	/* the last number that a record can have, in a buffer with no byte too many */
	right_lengths();
	l.b.count = 0xfffffffffffffffe;
	l.bytes[0] = 2, l.bytes[1] = 0x0e;
	small(record, 0);
	if (l.answer != 0x3302 || l.printed != 28 || !same(l.line, "18446744073709551615 0 3302\n", 28))
		fail("the last record");
	tried++;

	/* nothing was lost: the send that was refused is done */
	small(send, 0);
	if (l.answer != 10)
		fail("the send after all refusals");
}

static void refusals(void)
{
	refusals_of(SKARVOYA_LAN91C96);
	refusals_of(SKARVOYA_LAN91C94);
	asked_for(SKARVOYA_LAN91C96);
	asked_for(SKARVOYA_LAN91C94);
	filled = decimal(out, tried) - out;
	for (const char *text = " calls answered as the header says\n"; *text; text++)
		out[filled++] = *text;
}

int main(int argc, char **argv)
{
	char text[64], *at;

	if (argc != 2 || (argv[1][0] != 'r' && argv[1][0] != 'c')) {
		say("usage: monitor records|calls < RECORDS, or monitor refusals\n");
		return 2;
	}
	for (unsigned i = 0; i < BELOW; i++)
		area[i] = PATTERN;
	start(SKARVOYA_LAN91C96);
	if (argv[1][0] == 'c')
		by_calls();
	else if (argv[1][2] == 'c')
		by_records();
	else
		refusals();
	flush();
	for (unsigned i = 0; i < BELOW; i++)
		if (area[i] != PATTERN)
			fail("a call wrote below its stack of 1,024 bytes");
	at = decimal(text, deepest);
	*at = 0;
	say("monitor: the deepest call took ");
	say(text);
	say(" of 1,024 bytes of stack\n");
	return 0;
}
