/* Printing, by the console of a machine of vmhost (console.c) or by the host's standard output (native.c). */
#ifndef CONSOLE_H
#define CONSOLE_H

/* One byte. */
void con_putchar(char byte);

/* The bytes of a text, without a line feed after them. */
void con_puts(const char *text);

/* A number in decimal digits, with blanks before them up to a width. */
void con_number(unsigned number, unsigned width);

#endif
