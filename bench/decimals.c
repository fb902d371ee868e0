#include "decimals.h"

enum { POWERS = 47, WORDS = 5 };

/* D and U of 10^k. */
static struct {
    uint64_t m;
    int64_t e;
} powers[2][POWERS];

/* 10^k as a whole number of WORDS words, the lowest first; then its highest 32 bits. */
void fill_powers(void)
{
    uint32_t n[WORDS] = {1};
    for (int k = 0; k < POWERS; k++) {
        int top = WORDS - 1;
        while (n[top] == 0)
            top--;
        int zeros = __builtin_clz(n[top]);
        uint64_t high = (uint64_t)n[top] << 32 | (top > 0 ? n[top - 1] : 0);
        uint64_t m = high << zeros >> 32;
        int rest = (uint32_t)(high << zeros) != 0;
        for (int i = 0; i < top - 1; i++)
            rest |= n[i] != 0;
        int64_t e = 32 * (top - 1) + 32 - zeros;
        powers[0][k].m = m;
        powers[1][k].m = m + (uint64_t)rest;
        powers[0][k].e = powers[1][k].e = e;
        uint64_t carry = 0;
        for (int i = 0; i < WORDS; i++) {
            carry += (uint64_t)n[i] * 10;
            n[i] = (uint32_t)carry;
            carry >>= 32;
        }
    }
}

jinthuol_decimal same_decimal(bool up, jinthuol_scaled x)
{
    if (x.m == 0)
        return (jinthuol_decimal){0, 0};
    int zeros = __builtin_clz(x.m);
    uint64_t m = (uint64_t)x.m << zeros;
    int64_t n = zeros - (int64_t)x.e;
    if (n < 32)
        return (jinthuol_decimal){1000, 0};
    for (int64_t k = n > 174 ? POWERS : 3 + ((n - 32) * 1233 + 4095) / 4096; k < POWERS; k++) {
        uint64_t h = m * powers[up][k].m;
        /* 31 bits are cut off, or 32 where one more is left. */
        int cut = 31 + (int)(h >> 63);
        uint64_t p = up ? ((h - 1) >> cut) + 1 : h >> cut;
        uint64_t w = p >> (n - powers[up][k].e - cut);
        if (w < 1000)
            continue;
        uint64_t digits = up ? w + 1 : w == 10000 ? 9999 : w;
        if (digits < 10000)
            return (jinthuol_decimal){(uint32_t)digits, (uint32_t)(k - 3)};
        return (jinthuol_decimal){(uint32_t)(digits - 9000), (uint32_t)(k - 4)};
    }
    return up ? (jinthuol_decimal){1000, 43} : (jinthuol_decimal){0, 0};
}
