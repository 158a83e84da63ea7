/* Drives the bench over a pipe: reset, allocate, load, send, receive, remove and release.
 * usage: driver BENCH      build: cc -o driver driver.c */
#include <errno.h>
#include <signal.h>
#include <stdio.h>
#include <stdlib.h>
#include <string.h>
#include <sys/wait.h>
#include <unistd.h>

static FILE *to_chip, *from_chip;
static pid_t program;
static unsigned selected_bank;

struct reply {
	unsigned answer, value;
};

static void fail(const char *what)
{
	fprintf(stderr, "driver: %s\n", what);
	exit(1);
}

/* a record of 8 bytes goes in, a line comes out */
static struct reply answered(const unsigned char bytes[8])
{
	unsigned long long number;
	struct reply r;

	fwrite(bytes, 1, 8, to_chip);
	fflush(to_chip);
	if (fscanf(from_chip, "%llu %u %x", &number, &r.answer, &r.value) != 3)
		fail("no line for a record: is the program given the bench?");
	return r;
}

static struct reply record(unsigned kind, unsigned b1, unsigned b2, unsigned b3)
{
	unsigned char bytes[8] = { kind, b1, b2, b3 };

	return answered(bytes);
}

static unsigned done(unsigned kind, unsigned b1, unsigned b2, unsigned b3)
{
	struct reply r = record(kind, b1, b2, b3);

	if (r.answer != 0) {
		printf("refusal %u", r.answer);
		if (r.answer == 13 || r.answer == 18 || r.answer == 19) /* the value is the byte count in the packet */
			printf(", byte count %u,", r.value);
		printf(" of record %02x %02x %02x %02x\n", kind, b1, b2, b3);
		exit(1);
	}
	return r.value;
}

static void bank(unsigned b)
{
	if (b != selected_bank)
		done(3, 0x0e, b, 0);
	selected_bank = b;
}

static unsigned inb(unsigned b, unsigned offset)
{
	bank(b);
	return done(1, offset, 0, 0);
}

static unsigned inw(unsigned b, unsigned offset)
{
	bank(b);
	return done(2, offset, 0, 0);
}

static void outb(unsigned b, unsigned offset, unsigned value)
{
	bank(b);
	done(3, offset, value, 0);
}

static void outw(unsigned b, unsigned offset, unsigned value)
{
	bank(b);
	done(4, offset, value & 0xff, value >> 8);
}

/* the FCS of a frame, behind its bytes: the CRC-32 of IEEE 802.3, lowest bit and byte first */
static void append_fcs(unsigned char *wire, size_t length)
{
	unsigned long crc = 0xffffffff;
	size_t at;
	int bit;

	for (at = 0; at < length; at++)
		for (crc ^= wire[at], bit = 0; bit < 8; bit++)
			crc = crc & 1 ? crc >> 1 ^ 0xedb88320 : crc >> 1;
	for (at = 0; at < 4; at++)
		wire[length + at] = ~crc >> 8 * at & 0xff;
}

/* a frame with its FCS arrives; what became of it, 0 where it is stored */
static unsigned frame(const unsigned char *wire, size_t length)
{
	unsigned char bytes[8];
	size_t at, part;

	for (at = 0; at < length; at += part) {
		part = length - at < 6 ? length - at : 6;
		memset(bytes, 0, sizeof bytes);
		bytes[0] = 5;
		bytes[1] = part;
		memcpy(bytes + 2, wire + at, part);
		if (answered(bytes).answer != 0)
			fail("wire bytes are refused");
	}
	return done(6, 0, 0, 0);
}

static void connect_bench(const char *path)
{
	int in[2], out[2];

	if (access(path, X_OK) != 0) {
		fprintf(stderr, "driver: cannot run %s: %s\n", path, strerror(errno));
		exit(1);
	}
	if (pipe(in) != 0 || pipe(out) != 0)
		fail("no pipe");
	signal(SIGPIPE, SIG_IGN); /* a bench that ends is told by the line that is missing */
	program = fork();
	if (program == 0) {
		dup2(in[0], 0);
		dup2(out[1], 1);
		close(in[0]), close(in[1]), close(out[0]), close(out[1]);
		execl(path, path, (char *)0);
		fprintf(stderr, "driver: cannot run %s: %s\n", path, strerror(errno));
		_exit(127);
	}
	close(in[0]);
	close(out[1]);
	to_chip = fdopen(in[1], "wb");
	from_chip = fdopen(out[0], "r");
}

static const unsigned char station[6] = { 0x02, 0x00, 0x00, 0x12, 0x34, 0x56 };

static void send_one(void)
{
	unsigned char packet[26] = { 0, 0, 26, 0, 0xff, 0xff, 0xff, 0xff, 0xff, 0xff };
	unsigned number, length, at;

	memcpy(packet + 10, station, 6);
	memcpy(packet + 16, "\x08\x00hello!", 8);
	outb(2, 0x0, 0x20); /* allocate one page */
	number = inb(2, 0x3);
	outb(2, 0x2, number);
	outw(2, 0x6, 0x4000); /* AUTO INCR, write */
	for (at = 0; at < sizeof packet; at += 2)
		outw(2, 0x8, packet[at] + 256u * packet[at + 1]);
	outb(2, 0x0, 0xc0); /* enqueue */
	printf("enqueued         packet %u, free pages %u\n", number, inw(0, 0x8) >> 8);
	length = done(7, 0, 0, 0);
	printf("sent             %u bytes put out, completion head %u\n", length, inw(2, 0x4) & 0xff);
	outb(2, 0x0, 0xa0); /* release */
	outb(2, 0xc, 0x02); /* acknowledge */
}

static void receive_one(void)
{
	unsigned char wire[64] = { 0 };
	unsigned status, count, at, same = 1, word;

	memcpy(wire, station, 6);
	for (at = 14; at < 60; at++)
		wire[at] = at;
	append_fcs(wire, 60);
	printf("frame arrives    value %u\n", frame(wire, sizeof wire));
	outw(2, 0x6, 0xe000); /* RCV, AUTO INCR, READ */
	status = inw(2, 0x8);
	count = inw(2, 0x8);
	for (at = 0; at + 6 < count; at += 2) {
		word = inw(2, 0x8);
		same &= (word & 0xff) == wire[at] && word >> 8 == wire[at + 1];
	}
	printf("read             status %04xh, count %u, same bytes %s\n", status, count, same ? "yes" : "no");
	outb(2, 0x0, 0x80); /* remove and release */
	printf("removed          free pages %u\n", inw(0, 0x8) >> 8);
}

int main(int argc, char **argv)
{
	unsigned at;

	if (argc != 2) {
		fprintf(stderr, "usage: driver BENCH   (what tools/build bench prints)\n");
		return 2;
	}
	connect_bench(argv[1]);
	outw(0, 0x4, 0x8000); /* soft reset, and out of it */
	outw(0, 0x4, 0x0000);
	for (at = 0; at < 6; at++)
		outb(1, 4 + at, station[at]);
	outw(0, 0x0, 0x0081); /* TXENA, PAD_EN */
	outw(0, 0x4, 0x0100); /* RXEN */
	printf("after reset      free pages %u\n", inw(0, 0x8) >> 8);
	send_one();
	receive_one();
	fclose(to_chip);
	waitpid(program, NULL, 0);
	return 0;
}
