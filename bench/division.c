#include "division.h"

/* Test 10. */
static bool refused(jinthuol_scaled x, uint32_t k)
{
    if (k == 0)
        return true;
    if (x.m == 0)
        return x.e != 0;
    return x.m < 0x80000000u || x.e < -1000000000;
}

uint32_t same_divide(bool up, jinthuol_scaled x, uint32_t k, jinthuol_scaled *quotient)
{
    *quotient = (jinthuol_scaled){0, 0};
    if (refused(x, k))
        return 10;
    if (x.m == 0)
        return 0;
    /* followed by as many zeros as k has bits, m has a quotient of 32 or 33 bits */
    int bits = 32 - __builtin_clz(k);
    uint64_t n = (uint64_t)x.m << bits, q = (up ? n + (k - 1) : n) / k, c = q >> 32;
    *quotient = (jinthuol_scaled){(uint32_t)((up ? q + c : q) >> c), x.e - bits + (int)c};
    return 0;
}
