/* Integers of 128 bits, where the compiler for WebAssembly calls a function: it multiplies and
   shifts them by these names. */
typedef unsigned __int128 wide;
typedef __int128 signed_wide;
typedef __UINT64_TYPE__ uint64_t;
typedef __INT64_TYPE__ int64_t;

enum { BITS = 64, HALF = 32 };
#define LOW_HALF 0xffffffffu

static wide join(uint64_t high, uint64_t low) { return (wide)high << BITS | low; }

wide __multi3(wide a, wide b)
{
    uint64_t low_a = (uint64_t)a, low_b = (uint64_t)b;
    uint64_t a0 = low_a & LOW_HALF, a1 = low_a >> HALF;
    uint64_t b0 = low_b & LOW_HALF, b1 = low_b >> HALF;
    uint64_t first = a0 * b0;
    uint64_t second = a1 * b0 + (first >> HALF);
    uint64_t third = a0 * b1 + (second & LOW_HALF);
    uint64_t high = a1 * b1 + (second >> HALF) + (third >> HALF);
    high += low_a * (uint64_t)(b >> BITS) + (uint64_t)(a >> BITS) * low_b;
    return join(high, third << HALF | (first & LOW_HALF));
}

/* A shift by less than 128. */
wide __ashlti3(wide a, int by)
{
    uint64_t high = (uint64_t)(a >> BITS), low = (uint64_t)a;
    if (by == 0)
        return a;
    if (by >= BITS)
        return join(low << (by - BITS), 0);
    return join(high << by | low >> (BITS - by), low << by);
}

wide __lshrti3(wide a, int by)
{
    uint64_t high = (uint64_t)(a >> BITS), low = (uint64_t)a;
    if (by == 0)
        return a;
    if (by >= BITS)
        return join(0, high >> (by - BITS));
    return join(high >> by, low >> by | high << (BITS - by));
}

signed_wide __ashrti3(signed_wide a, int by)
{
    int64_t high = (int64_t)(a >> BITS);
    uint64_t low = (uint64_t)a;
    if (by == 0)
        return a;
    if (by >= BITS)
        return (signed_wide)join((uint64_t)(high >> (BITS - 1)), (uint64_t)(high >> (by - BITS)));
    return (signed_wide)join((uint64_t)(high >> by), low >> by | (uint64_t)high << (BITS - by));
}
