/* What `bench/run` measures as compiled C: one turn of what a small firmware does. It writes lines of readings, takes the checksum of
   their text, reads them again as one that receives them, sorts them by two orders, and makes a product of matrices of them. Each turn
   is the same, whatever lies in memory before it: each variable is written before it is read. */
#include <stddef.h>

#define READINGS 96
#define LINE 32                 /* more bytes than a line has */
#define SIDE 12

struct reading {
	unsigned sensor;
	unsigned time;
	int value;
};

typedef int compare(const struct reading *, const struct reading *);

static char text[READINGS * LINE];
static struct reading readings[READINGS];
static int left[SIDE][SIDE], right[SIDE][SIDE], product[SIDE][SIDE];

/* The CRC-32 of four bits. */
static const unsigned crc_of_four[16] = {
	0x00000000, 0x1db71064, 0x3b6e20c8, 0x26d930ac, 0x76dc4190, 0x6b6b51f4, 0x4db26158, 0x5005713c,
	0xedb88320, 0xf00f9344, 0xd6d6a3e8, 0xcb61b38c, 0x9b64c2b0, 0x86d3d2d4, 0xa00ae278, 0xbdbdf21c,
};

static unsigned next(unsigned word)
{
	return word * 1664525u + 1013904223u;
}

static char *put_number(char *to, int number)
{
	char digits[10];
	unsigned size = number < 0 ? -(unsigned)number : (unsigned)number, count = 0;

	if (number < 0)
		*to++ = '-';
	do {
		digits[count++] = (char)('0' + size % 10);
		size /= 10;
	} while (size != 0);
	while (count != 0)
		*to++ = digits[--count];
	return to;
}

/* A line a reading: `s7 t1250 v-381`. Answers where the text ends. */
static char *write_lines(char *to)
{
	unsigned word = 1;

	for (int i = 0; i < READINGS; i++) {
		word = next(word);
		*to++ = 's';
		to = put_number(to, (int)(word >> 28));
		*to++ = ' ';
		*to++ = 't';
		to = put_number(to, 1000 + 25 * i);
		*to++ = ' ';
		*to++ = 'v';
		to = put_number(to, (int)(word << 4) >> 16);
		*to++ = '\n';
	}
	return to;
}

static unsigned crc(const char *at, const char *end)
{
	unsigned sum = ~0u;

	for (; at != end; at++) {
		sum ^= (unsigned char)*at;
		sum = sum >> 4 ^ crc_of_four[sum & 15];
		sum = sum >> 4 ^ crc_of_four[sum & 15];
	}
	return ~sum;
}

static void set_field(struct reading *reading, char field, int number)
{
	switch (field) {
	case 's':
		reading->sensor = (unsigned)number;
		break;
	case 't':
		reading->time = (unsigned)number;
		break;
	case 'v':
		reading->value = number;
		break;
	}
}

/* Answers how many lines were read. */
static size_t read_lines(const char *at, const char *end)
{
	size_t count = 0;
	int number = 0, is_negative = 0;
	char field = 0;

	for (; at != end && count < READINGS; at++) {
		switch (*at) {
		case ' ':
		case '\n':
			set_field(&readings[count], field, is_negative ? -number : number);
			count += *at == '\n';
			break;
		case '-':
			is_negative = 1;
			break;
		case '0' ... '9':
			number = 10 * number + (*at - '0');
			break;
		default:
			field = *at;
			number = 0;
			is_negative = 0;
		}
	}
	return count;
}

static int by_value(const struct reading *a, const struct reading *b)
{
	return a->value < b->value ? -1 : a->value > b->value;
}

static int by_sensor(const struct reading *a, const struct reading *b)
{
	if (a->sensor != b->sensor)
		return a->sensor < b->sensor ? -1 : 1;
	return a->time < b->time ? -1 : a->time > b->time;
}

static void swap(struct reading *a, struct reading *b)
{
	struct reading kept = *a;

	*a = *b;
	*b = kept;
}

/* Quicksort: those below the first one come before it. */
static void sort(struct reading *first, size_t count, compare *order)
{
	while (count > 1) {
		size_t below = 0;

		swap(&first[0], &first[count / 2]);
		for (size_t i = 1; i < count; i++)
			if (order(&first[i], &first[0]) < 0)
				swap(&first[++below], &first[i]);
		swap(&first[0], &first[below]);
		sort(first, below, order);
		first += below + 1;
		count -= below + 1;
	}
}

static compare *const orders[] = { by_value, by_sensor };

static void multiply(void)
{
	for (int i = 0; i < SIDE; i++)
		for (int k = 0; k < SIDE; k++) {
			int sum = 0;

			for (int j = 0; j < SIDE; j++)
				sum += left[i][j] * right[j][k];
			product[i][k] = sum;
		}
}

/* One matrix has the readings' values, the other their sensors. */
static int traced(size_t count)
{
	int trace = 0;

	for (size_t i = 0, at = 0; i < SIDE * SIDE; i++) {
		left[i / SIDE][i % SIDE] = readings[at].value;
		right[i / SIDE][i % SIDE] = (int)readings[at].sensor;
		at = at + 1 < count ? at + 1 : 0;
	}
	multiply();
	for (int i = 0; i < SIDE; i++)
		trace += product[i][i];
	return trace;
}

/* One turn. The number that it answers depends on all of it. */
unsigned start(void)
{
	char *end = write_lines(text);
	unsigned sum = crc(text, end);
	size_t count = read_lines(text, end);

	for (size_t i = 0; i < sizeof orders / sizeof orders[0]; i++) {
		sort(readings, count, orders[i]);
		sum += (unsigned)traced(count);
	}
	return sum;
}
