/* Edits Z with outside input 0 on A1, from structs in memory that held something else, and writes what the calls answer and leave. */
#include <stdio.h>
#include <string.h>

#include "quagmuffin.h"

static uint64_t contents[4];
static uint8_t flops[1], inputs[1], values[32];
static qm_change edits[3];

static void put(size_t at, uint8_t kind, uint64_t number, uint64_t value) {
    memset(&edits[at], 0xA5, sizeof edits[at]);
    edits[at].kind = kind;
    edits[at].number = number;
    edits[at].value = value;
}

static void edit(const uint8_t *file, size_t file_len, size_t edits_len) {
    uint64_t answer = qm_edit(file, file_len, contents, 4, flops, 1, inputs, 1, values, 32, edits, edits_len);
    printf("%u: ", QM_NUMBER(answer));
    for (size_t signal = 0; signal < 32; signal++)
        printf("%u", values[signal]);
    printf(" input %u contents %llu\n", inputs[0], (unsigned long long)contents[0]);
}

int main(void) {
    uint8_t file[135] = {1, 2, 0, 1, 1, 2, 124};
    file[8 + 63] = 1; /* The high byte of A1's driver, which is 256. */
    file[132] = 3;
    put(0, 1, 0, 1);
    put(1, 0, 0, 1);
    put(2, 1, 0, 2);
    edit(file, sizeof file, 3);
    put(0, 0, 0, 0);
    put(1, 2, 0, 0);
    edit(file, sizeof file, 2);
    return 0;
}
