/* What is answered about the house tables: a line for each pair with the shares of minute 0, 1, .. up to the first minute that is
 * refused, as far as the first pair that has none. */
#include <stdint.h>
#include <stdio.h>

#include "../second/trial.h"

enum { NUMBER, PLACE, SHARE, ANSWERED = 6 };

/* The pair's line; how many shares it has. */
static uint32_t print_table(uint32_t pair) {
    uint32_t answer[ANSWERED];
    uint32_t minute = 0;
    printf("pair %u:", pair);
    for (trial_house(pair, minute, answer, ANSWERED); answer[NUMBER] == 0; trial_house(pair, ++minute, answer, ANSWERED))
        printf(" %u", answer[SHARE]);
    printf("; minute %u refused %u %u\n", minute, answer[NUMBER], answer[PLACE]);
    return minute;
}

int main(void) {
    for (uint32_t pair = 0; print_table(pair) > 0; pair++) continue;
    return 0;
}
