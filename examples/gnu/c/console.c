/* Printing by the console of a machine of vmhost. */
#include "console.h"

/* The console's registers, through kseg1. */
#define CON_STAT (*(volatile unsigned *)0xbf000000)
#define CON_OUT (*(volatile unsigned *)0xbf000008)
#define OUTPUT_HAS_ROOM 2u

void con_putchar(char byte)
{
	while ((CON_STAT & OUTPUT_HAS_ROOM) == 0)
		;
	CON_OUT = (unsigned char)byte;
}

void con_puts(const char *text)
{
	while (*text != 0)
		con_putchar(*text++);
}

void con_number(unsigned number, unsigned width)
{
	char digits[10];
	unsigned count = 0;

	do {
		digits[count++] = (char)('0' + number % 10);
		number /= 10;
	} while (number != 0);
	for (; width > count; width--)
		con_putchar(' ');
	while (count != 0)
		con_putchar(digits[--count]);
}
