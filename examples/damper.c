/* Damper commands in a C program: an image on standard input, and on standard output the command
 * of each output that it makes, a line each. If the run reports anything, none is handed on: what
 * is put out may then depend on what was left over in a car. README.md says how to build it. */
#include <stdio.h>
#include <string.h>

#include "../include/uviktalik.h"

/* One byte more than the largest image has: whatever is longer is refused as well. */
static uint8_t image[UVIKTALIK_MAX_IMAGE + 1];
static uint8_t mem[UVIKTALIK_MAX_MEMORY], vbits[UVIKTALIK_MAX_MEMORY], abits[UVIKTALIK_MAX_MEMORY];
static uint32_t outputs[UVIKTALIK_MAX_OUTPUT_LIST], state[UVIKTALIK_STATE_WORDS];

/* Runs the image to its end. Reports are only counted, so there is no list for them. */
static uint8_t run_image(size_t size, size_t *fault)
{
    size_t code[2], m;
    uint32_t header[UVIKTALIK_HEADER_WORDS], regs[UVIKTALIK_REGISTERS] = {0}, no_reports[1];
    uint8_t number = uviktalik_read(image, size, header, code, fault), reason;
    if (number != UVIKTALIK_ACCEPTED)
        return number;
    m = header[UVIKTALIK_HEADER_M];
    regs[UVIKTALIK_FRAME_REGISTER] = header[UVIKTALIK_HEADER_M];
    number = uviktalik_begin(image, size, regs, mem, m, vbits, m, abits, m, state, fault);
    if (number != UVIKTALIK_ACCEPTED)
        return number;
    return uviktalik_run(image, size, state, mem, m, vbits, m, abits, m, no_reports, 0, outputs,
                         UVIKTALIK_MAX_OUTPUT_LIST, UVIKTALIK_MAX_STEPS, &reason, fault);
}

/* Nine digits tell a float from every other. What is not known to carry a rate is blocked. */
static void print_command(uint8_t kind, uint32_t bits)
{
    float rate;
    memcpy(&rate, &bits, sizeof rate);
    switch (kind) {
    case UVIKTALIK_COMMAND_BUMP:
        printf("bump %.9g\n", rate);
        break;
    case UVIKTALIK_COMMAND_REBOUND:
        printf("rebound %.9g\n", rate);
        break;
    case UVIKTALIK_COMMAND_PRELOAD:
        printf("preload %.9g\n", rate);
        break;
    default:
        printf("blocked port %u\n", bits);
    }
}

static int refused(unsigned number, size_t fault)
{
    fprintf(stderr, "refused %u at %zu\n", number, fault);
    return 1;
}

int main(void)
{
    size_t size = fread(image, 1, sizeof image, stdin), fault, made, k;
    uint8_t number = run_image(size, &fault), kind;
    uint32_t bits;
    if (number != UVIKTALIK_ACCEPTED)
        return refused(number, fault);
    if (state[UVIKTALIK_STATE_REPORTS] > 0) {
        fprintf(stderr, "reports %u: nothing is handed on\n", state[UVIKTALIK_STATE_REPORTS]);
        return 1;
    }
    made = state[UVIKTALIK_STATE_OUTPUTS];
    for (k = 0; k < made; k++) {
        number = uviktalik_command(outputs, UVIKTALIK_OUTPUT_WORDS * made, k, &kind, &bits);
        if (number != UVIKTALIK_ACCEPTED)
            return refused(number, 0);
        print_command(kind, bits);
    }
    return 0;
}
