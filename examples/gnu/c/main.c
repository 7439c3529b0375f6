/* Prints the primes below 200, ten in a line, and the factorials of 0 to 12, the last that a word holds. */
#include "console.h"

#define LIMIT 200

static unsigned char composite[LIMIT];     /* .bss: zeros at first */
unsigned primes_in_a_line = 10;            /* .data */
static const char *const titles[] = { "Primes below ", "Factorials" };     /* .rodata */

static void mark_multiples(unsigned prime)
{
	for (unsigned multiple = prime * prime; multiple < LIMIT; multiple += prime)
		composite[multiple] = 1;
}

static unsigned print_primes(void)
{
	unsigned count = 0;

	for (unsigned n = 2; n < LIMIT; n++) {
		if (composite[n])
			continue;
		mark_multiples(n);
		con_number(n, 4);
		count++;
		if (count % primes_in_a_line == 0)
			con_putchar('\n');
	}
	con_putchar('\n');
	return count;
}

/* By itself, so that the stack is used. */
static unsigned factorial(unsigned n)
{
	return n == 0 ? 1 : n * factorial(n - 1);
}

int main(void)
{
	con_puts(titles[0]);
	con_number(LIMIT, 0);
	con_puts(":\n");
	unsigned count = print_primes();
	con_puts("There are ");
	con_number(count, 0);
	con_puts(".\n\n");
	con_puts(titles[1]);
	con_puts(":\n");
	for (unsigned n = 0; n <= 12; n++) {
		con_number(n, 2);
		con_puts("! =");
		con_number(factorial(n), 10);
		con_putchar('\n');
	}
	return 0;
}
