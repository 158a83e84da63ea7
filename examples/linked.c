/* A driver and the model in one process, without a pipe: a frame is sent, what goes out comes in again, and the driver fetches it when the interrupt line is up.
 * build: cc -Iinclude -o target/linked examples/linked.c $(tools/build skarvoya) */
#include <stdio.h>
#include <stdlib.h>
#include <string.h>

#include "skarvoya.h"

static struct skarvoya_chip chip; /* the card: its registers and its memory */
static unsigned selected_bank;

static unsigned done(uint32_t answer, const char *what)
{
	if (skarvoya_refusal(answer) != 0) {
		printf("refusal %u, value %u: %s\n", skarvoya_refusal(answer), skarvoya_value(answer), what);
		exit(1);
	}
	return skarvoya_value(answer);
}

static void bank(unsigned b)
{
	if (b != selected_bank)
		done(skarvoya_chip_write(&chip, false, 0x0e, b), "bank");
	selected_bank = b;
}

static unsigned inb(unsigned b, unsigned offset)
{
	bank(b);
	return done(skarvoya_chip_read(&chip, false, offset), "inb");
}

static unsigned inw(unsigned b, unsigned offset)
{
	bank(b);
	return done(skarvoya_chip_read(&chip, true, offset), "inw");
}

static void outb(unsigned b, unsigned offset, unsigned value)
{
	bank(b);
	done(skarvoya_chip_write(&chip, false, offset, value), "outb");
}

static void outw(unsigned b, unsigned offset, unsigned value)
{
	bank(b);
	done(skarvoya_chip_write(&chip, true, offset, value), "outw");
}

/* ---- the driver: no line of it knows whether there is a card or a model */
static const unsigned char station[6] = { 0x02, 0x00, 0x00, 0x12, 0x34, 0x56 };

static void bring_up(void)
{
	outw(0, 0x4, 0x8000); /* soft reset, and out of it */
	outw(0, 0x4, 0x0000);
	for (unsigned at = 0; at < 6; at++)
		outb(1, 4 + at, station[at]);
	outb(2, 0xd, 0x01);   /* mask: a frame was received */
	outw(0, 0x0, 0x0081); /* TCR: PAD_EN, TXENA */
	outw(0, 0x4, 0x0300); /* RCR: STRIP_CRC, RXEN */
}

static void enqueue(const unsigned char *data, unsigned length)
{
	outb(2, 0x0, 0x20); /* allocate one page */
	outb(2, 0x2, inb(2, 0x3));
	outw(2, 0x6, 0x4000); /* AUTO INCR, write */
	outw(2, 0x8, 0);
	outw(2, 0x8, length + 6);
	for (unsigned at = 0; at < length; at += 2)
		outw(2, 0x8, data[at] | data[at + 1] << 8);
	outw(2, 0x8, 0);
	outb(2, 0x0, 0xc0); /* enqueue */
}

static unsigned fetch(unsigned char *data)
{
	unsigned length, word;

	outw(2, 0x6, 0xe000); /* RCV, AUTO INCR, READ */
	inw(2, 0x8);	      /* status */
	length = inw(2, 0x8) - 6;
	for (unsigned at = 0; at < length; at += 2) {
		word = inw(2, 0x8);
		data[at] = word & 0xff;
		data[at + 1] = word >> 8;
	}
	outb(2, 0x0, 0x80); /* remove and release */
	return length;
}

static void retire(void)
{
	outb(2, 0x2, inb(2, 0x4)); /* the head of completion */
	outb(2, 0x0, 0xa0);	   /* release */
	outb(2, 0xc, 0x02);	   /* acknowledge */
}

/* ---- the cable: a send ends well, and what it put out arrives */
static unsigned loop_back(void)
{
	unsigned char wire[SKARVOYA_OUTPUT];
	unsigned length = done(skarvoya_chip_send(&chip, wire, sizeof wire, 0, 0, 0), "send");

	done(skarvoya_chip_frame(&chip, wire, length, false), "frame");
	return length;
}

int main(void)
{
	unsigned char sent[60] = { 0 }, fetched[2048];
	unsigned length;

	done(skarvoya_chip_power_up(&chip, SKARVOYA_LAN91C96), "power-up");
	bring_up();
	memcpy(sent, station, 6);
	memcpy(sent + 6, station, 6);
	memcpy(sent + 12, "\x08\x00hello!", 8);
	enqueue(sent, 20);
	printf("enqueued   interrupt line %u, free pages %u\n", skarvoya_chip_line(&chip), inw(0, 0x8) >> 8);
	length = loop_back();
	printf("looped     %u bytes on the wire, interrupt line %u\n", length, skarvoya_chip_line(&chip));
	length = fetch(fetched);
	printf("fetched    %u bytes, %s, interrupt line %u\n", length, length == 60 && memcmp(sent, fetched, 60) == 0 ? "the same" : "others", skarvoya_chip_line(&chip));
	retire();
	printf("retired    free pages %u\n", inw(0, 0x8) >> 8);
	return 0;
}
