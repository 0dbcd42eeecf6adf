/* The program benchplan through the C call: a plan text on standard input, its answer on standard output. */
#include "benchplan.h"
#include <stdio.h>

int main(void) {
    static uint8_t text[BENCH_TEXT_MOST + 1], answer[BENCH_ANSWER_MOST];
    size_t length = fread(text, 1, sizeof text, stdin);
    fwrite(answer, 1, bench_answer(text, length, &answer), stdout);
    return 0;
}
