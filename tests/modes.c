/* Damper commands in every mode that the processor has for floats: subnormal numbers taken for 0 or
 * not, results flushed to 0 or not, each way of rounding, and exceptions that end the program or do
 * not, as a program linked with -ffast-math or one that sets them itself may have them. What is not
 * so is said, and the exit status is then 1. */
#include <stdio.h>
#include <xmmintrin.h>

#include "../include/uviktalik.h"

/* Bits of the processor's word of modes. An exception whose mask is 1 does not end the program. */
enum {
    RAISED = 0x003F,
    SUBNORMALS_ARE_ZERO = 0x0040,
    MASKS = 0x1F80,
    ROUNDING = 0x2000,
    FLUSH_TO_ZERO = 0x8000
};

/* A value, and whether it passes the gates of bump and rebound, and of preload. */
struct value {
    uint32_t bits;
    int rates, preload;
};

static const struct value values[] = {
    {0x00000000, 1, 1}, /* 0 */
    {0x80000000, 1, 1}, /* minus 0 */
    {0x00000001, 1, 1}, /* the least subnormal number */
    {0x007FFFFF, 1, 1}, /* the greatest */
    {0x00800000, 1, 1}, /* the least normal number */
    {0x80000001, 0, 0}, /* the same below 0 */
    {0x807FFFFF, 0, 0},
    {0x80800000, 0, 0},
    {0x42200000, 1, 1}, /* 40 */
    {0x42200001, 1, 0},
    {0x45FA0000, 1, 0}, /* 8000 */
    {0x45FA0001, 0, 0},
    {0x7F800001, 0, 0}, /* not a number */
    {0xFFC00000, 0, 0},
};

static int status;

static void try_value(unsigned mode, const struct value *value)
{
    static const uint8_t kinds[] = {UVIKTALIK_COMMAND_BUMP, UVIKTALIK_COMMAND_REBOUND,
                                    UVIKTALIK_COMMAND_PRELOAD};
    uint32_t port, bits;
    uint8_t kind, number;
    for (port = 0; port < sizeof kinds; port++) {
        const uint32_t outputs[] = {port, value->bits};
        const int passes = port < 2 ? value->rates : value->preload;
        const uint8_t wanted = passes ? kinds[port] : UVIKTALIK_COMMAND_BLOCKED;
        number = uviktalik_command(outputs, UVIKTALIK_OUTPUT_WORDS, 0, &kind, &bits);
        if (number != 0 || kind != wanted || bits != (passes ? value->bits : port)) {
            printf("mode %04x, port %u, value %08x: number %u, kind %u, bits %08x\n", mode,
                   (unsigned)port, (unsigned)value->bits, number, kind, (unsigned)bits);
            status = 1;
        }
    }
}

static void try_mode(unsigned mode)
{
    size_t k;
    for (k = 0; k < sizeof values / sizeof *values; k++) {
        _mm_setcsr(mode);
        try_value(mode, &values[k]);
    }
}

int main(void)
{
    const unsigned usual = _mm_getcsr();
    const unsigned ours = RAISED | SUBNORMALS_ARE_ZERO | MASKS | 3 * ROUNDING | FLUSH_TO_ZERO;
    const unsigned rest = usual & ~ours;
    unsigned k;
    for (k = 0; k < 32; k++)
        try_mode(rest | (k & 3) * ROUNDING | (k & 4 ? SUBNORMALS_ARE_ZERO : 0)
                 | (k & 8 ? FLUSH_TO_ZERO : 0) | (k & 16 ? MASKS : 0));
    _mm_setcsr(usual);
    return status;
}
