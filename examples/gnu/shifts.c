/* What gcc calls, if it doesn't write it in place, for shifts of 64 bits and counts of bits. The places are 0 to 63. */
typedef unsigned long long u64;
typedef long long s64;

union halves {
	u64 whole;
	struct {
		unsigned low, high;
	} half;
};

u64 __ashldi3(u64 number, int places)
{
	union halves n = { number }, r;

	if (places >= 32) {
		r.half.high = n.half.low << (places - 32);
		r.half.low = 0;
	} else if (places > 0) {
		r.half.high = n.half.high << places | n.half.low >> (32 - places);
		r.half.low = n.half.low << places;
	} else {
		r = n;
	}
	return r.whole;
}

u64 __lshrdi3(u64 number, int places)
{
	union halves n = { number }, r;

	if (places >= 32) {
		r.half.low = n.half.high >> (places - 32);
		r.half.high = 0;
	} else if (places > 0) {
		r.half.low = n.half.low >> places | n.half.high << (32 - places);
		r.half.high = n.half.high >> places;
	} else {
		r = n;
	}
	return r.whole;
}

s64 __ashrdi3(s64 number, int places)
{
	u64 shifted = __lshrdi3((u64)number, places);

	if (number < 0 && places > 0)
		shifted |= ~__lshrdi3(~0ull, places);
	return (s64)shifted;
}

int __popcountsi2(unsigned number)
{
	int count = 0;

	for (; number != 0; number &= number - 1)
		count++;
	return count;
}

int __popcountdi2(u64 number)
{
	return __popcountsi2((unsigned)number) + __popcountsi2((unsigned)(number >> 32));
}

/* of a number that isn't 0: how many of its lowest bits are */
int __ctzsi2(unsigned number)
{
	return __popcountsi2((number & -number) - 1);
}

int __ctzdi2(u64 number)
{
	unsigned low = (unsigned)number;

	return low != 0 ? __ctzsi2(low) : 32 + __ctzsi2((unsigned)(number >> 32));
}

/* of a number that isn't 0: how many of its highest bits are */
int __clzdi2(u64 number)
{
	unsigned high = (unsigned)(number >> 32);

	return high != 0 ? __builtin_clz(high) : 32 + __builtin_clz((unsigned)number);
}

unsigned __bswapsi2(unsigned number)
{
	return number << 24 | (number & 0xff00) << 8 | (number >> 8 & 0xff00) | number >> 24;
}

u64 __bswapdi2(u64 number)
{
	return (u64)__bswapsi2((unsigned)number) << 32 | __bswapsi2((unsigned)(number >> 32));
}
