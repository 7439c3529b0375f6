/* Printing by the host's standard output, in place of console.c, to compare with. */
#include "console.h"
#include <stdio.h>

void con_putchar(char byte)
{
	putchar((unsigned char)byte);
}

void con_puts(const char *text)
{
	fputs(text, stdout);
}

void con_number(unsigned number, unsigned width)
{
	printf("%*u", (int)width, number);
}
