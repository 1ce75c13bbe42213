/* Judges the slice file on standard input, powers it up, settles it with all outside inputs at 0, and writes each slice's 32 signals.
 *
 *     gcc -Iinclude host/example/settle.c target/staticlib/libquagmuffin.a -o settle && ./settle < FILE
 */
#include <stdio.h>

#include "quagmuffin.h"

/* Nothing after the first 8,137 bytes changes an answer. */
enum { FILE_BYTES = 8137, SLICES = 64, INPUTS = 64 };

static uint8_t file[FILE_BYTES];
static uint64_t contents[4 * SLICES];
static uint8_t flops[SLICES], inputs[INPUTS], values[32 * SLICES];

static int refused(uint64_t answer) {
    printf("refused %u %llu\n", QM_NUMBER(answer), (unsigned long long)QM_PLACE(answer));
    return 1;
}

int main(void) {
    size_t len = fread(file, 1, sizeof file, stdin);
    uint64_t judged = qm_judge(file, len);
    if (QM_NUMBER(judged) != 0)
        return refused(judged);

    size_t n = QM_SLICES(judged), m = QM_INPUTS(judged);
    uint64_t answer = qm_power_up(file, len, contents, 4 * n, flops, n);
    if (answer == 0)
        answer = qm_settle(file, len, contents, 4 * n, flops, n, inputs, m, values, 32 * n);
    if (answer != 0)
        return refused(answer);

    for (size_t signal = 0; signal < 32 * n; signal++)
        printf("%u%s", values[signal], signal % 32 == 31 ? "\n" : "");
    return 0;
}
