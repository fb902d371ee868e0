/* Divides: reads lines of four numbers, 0 or 1 for the direction, m, e and the divisor, and prints the refusal's number, m and e of each answer. tests/bindings.py runs
 * it. With padding in the answer's struct it does not compile. */
#include <inttypes.h>
#include <stdio.h>

#include "jinthuol.h"

typedef char divided_has_3_words[sizeof(jinthuol_divided) == 12 ? 1 : -1];

int main(void)
{
    int up, read;
    uint32_t divisor;
    jinthuol_scaled number;

    while ((read = scanf("%d %" SCNu32 " %" SCNd32 " %" SCNu32, &up, &number.m, &number.e, &divisor)) == 4) {
        jinthuol_divided answer = jinthuol_divide(up != 0, number, divisor);
        printf("%" PRIu32 " %" PRIu32 " %" PRId32 "\n", answer.refusal, answer.quotient.m, answer.quotient.e);
    }
    return read != EOF;
}
