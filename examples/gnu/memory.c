/* What gcc calls by itself for copies and comparisons of memory, in a program without a library. */
#include <stddef.h>

void *memcpy(void *restrict to, const void *restrict from, size_t count)
{
	unsigned char *t = to;
	const unsigned char *f = from;

	while (count-- != 0)
		*t++ = *f++;
	return to;
}

void *memmove(void *to, const void *from, size_t count)
{
	unsigned char *t = to;
	const unsigned char *f = from;

	if (t <= f) {
		while (count-- != 0)
			*t++ = *f++;
	} else {
		while (count-- != 0)
			t[count] = f[count];
	}
	return to;
}

void *memset(void *to, int value, size_t count)
{
	unsigned char *t = to;

	while (count-- != 0)
		*t++ = (unsigned char)value;
	return to;
}

int memcmp(const void *a, const void *b, size_t count)
{
	const unsigned char *x = a, *y = b;

	for (; count-- != 0; x++, y++)
		if (*x != *y)
			return *x < *y ? -1 : 1;
	return 0;
}
