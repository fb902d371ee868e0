#include "advice.h"

/* The words of N, and of m and e of M, in a session. */
enum { LARGEST_M = 256, WORD_OF_N = 7, WORD_OF_M = 54 };

/* The entry for M stands at M - 1. */
static uint16_t orders[LARGEST_M];

/* The second condition by doubles: for no M is 2 x M^N/(N+1)! so near to 2^-32 that it matters, as the comparison with the library shows. */
void fill_orders(void)
{
    for (int M = 1; M <= LARGEST_M; M++) {
        int N = 0;
        double tail = 2;
        while (2 * M > N + 2 || tail > 0x1p-32) {
            N++;
            tail *= (double)M / (N + 1);
        }
        orders[M - 1] = (uint16_t)N;
    }
}

jinthuol_advice same_advice(jinthuol_session session)
{
    if (session.words[WORD_OF_N] == 0)
        return (jinthuol_advice){21, 0};
    uint32_t m = session.words[WORD_OF_M];
    int32_t e = (int32_t)session.words[WORD_OF_M + 1];
    if (e > 0)
        return (jinthuol_advice){0, 0};
    uint64_t M = e < -31 ? 1 : ((uint64_t)m + ((1ull << -e) - 1)) >> -e;
    return (jinthuol_advice){0, M > LARGEST_M ? 0 : orders[M - 1]};
}
