/* What gcc calls for quotients and remainders of 64 bits, in a program without a library: bit by bit, the highest first. A division
   by zero has a quotient of ones and the dividend as its remainder, as DIVU leaves it here. */
typedef unsigned long long u64;
typedef long long s64;

static u64 divided(u64 dividend, u64 divisor, u64 *rest)
{
	u64 quotient = 0, remainder = 0;

	for (int bit = 63; bit >= 0; bit--) {
		/* the bit that the shift drops: the remainder is 2^64 more than what is kept of it */
		int carry = (int)(remainder >> 63);

		remainder = remainder << 1 | (dividend >> bit & 1);
		quotient <<= 1;
		if (carry || remainder >= divisor) {
			remainder -= divisor;
			quotient |= 1;
		}
	}
	*rest = remainder;
	return quotient;
}

u64 __udivdi3(u64 dividend, u64 divisor)
{
	u64 rest;

	return divided(dividend, divisor, &rest);
}

u64 __umoddi3(u64 dividend, u64 divisor)
{
	u64 rest;

	divided(dividend, divisor, &rest);
	return rest;
}

static u64 size_of(s64 number)
{
	return number < 0 ? -(u64)number : (u64)number;
}

/* The quotient is cut off towards zero. */
s64 __divdi3(s64 dividend, s64 divisor)
{
	u64 quotient = __udivdi3(size_of(dividend), size_of(divisor));

	return (s64)((dividend < 0) == (divisor < 0) ? quotient : -quotient);
}

/* The remainder has the dividend's sign. */
s64 __moddi3(s64 dividend, s64 divisor)
{
	u64 rest = __umoddi3(size_of(dividend), size_of(divisor));

	return (s64)(dividend < 0 ? -rest : rest);
}
