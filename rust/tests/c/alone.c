/* A program that has memcpy and memset, as the header says, and nothing else from outside: it is linked, without a C library, and not run
 * (rust/tests/tests/links.rs). */
#include <mespindro.h>
#include <stddef.h>
#include <stdint.h>

void *memcpy(void *to, const void *from, size_t length) {
    for (size_t i = 0; i < length; i++)
        ((volatile uint8_t *)to)[i] = ((const uint8_t *)from)[i];
    return to;
}

void *memset(void *to, int byte, size_t length) {
    for (size_t i = 0; i < length; i++)
        ((volatile uint8_t *)to)[i] = (uint8_t)byte;
    return to;
}

static uint8_t text[2];
static uint16_t table[2], column[1], other[2], other_column[1];

int main(void) {
    mespindro_read(text, 2, table, 2, column, 1);
    mespindro_write(table, 2, column, 1, 1, text, 2);
    mespindro_step(table, 2, column, 1, 1, other, 2, other_column, 1);
    mespindro_run(table, 2, column, 1, 1, other, 2, other_column, 1, 1);
    mespindro_standing(table, 2, column, 1, 1, 0);
    mespindro_thread(table, 2, column, 1, 1, 0);
    mespindro_small_read(text, 2, table, 2, column, 1);
    mespindro_small_write(table, 2, column, 1, 1, text, 2);
    mespindro_small_step(table, 2, column, 1, 1, other, 2, other_column, 1);
    mespindro_small_run(table, 2, column, 1, 1, other, 2, other_column, 1, 1);
    mespindro_small_standing(table, 2, column, 1, 1, 0);
    mespindro_small_thread(table, 2, column, 1, 1, 0);
    return 0;
}
