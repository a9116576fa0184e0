/* The checker inside a C program: an image on standard input, and the lines that the program
 * `uviktalik` writes for it on standard output. README.md says how to build it. */
#include <stdio.h>

#include "../include/uviktalik.h"

/* One byte more than the largest image has: whatever is longer is refused as well. */
static uint8_t image[UVIKTALIK_MAX_IMAGE + 1];
static uint8_t mem[UVIKTALIK_MAX_MEMORY], vbits[UVIKTALIK_MAX_MEMORY], abits[UVIKTALIK_MAX_MEMORY];
static uint32_t reports[UVIKTALIK_MAX_REPORT_LIST], outputs[UVIKTALIK_MAX_OUTPUT_LIST];
static uint32_t state[UVIKTALIK_STATE_WORDS];

static int refused(unsigned number, size_t fault)
{
    printf("refused %u at %zu\n", number, fault);
    return 0;
}

static void print_reports(void)
{
    const uint32_t *entry = reports, *end = reports + UVIKTALIK_MAX_REPORT_LIST;
    uint32_t left = state[UVIKTALIK_STATE_REPORTS];
    for (; left > 0 && entry < end; left--, entry += UVIKTALIK_REPORT_WORDS)
        printf("step %u at %u kind %u detail %u\n", entry[UVIKTALIK_REPORT_STEPS],
               entry[UVIKTALIK_REPORT_INDEX], entry[UVIKTALIK_REPORT_KIND],
               entry[UVIKTALIK_REPORT_DETAIL]);
}

static void print_outputs(void)
{
    const uint32_t *entry = outputs;
    uint32_t left = state[UVIKTALIK_STATE_OUTPUTS];
    for (; left > 0; left--, entry += UVIKTALIK_OUTPUT_WORDS)
        printf("out port %u value %u\n", entry[UVIKTALIK_OUTPUT_PORT],
               entry[UVIKTALIK_OUTPUT_VALUE]);
}

int main(void)
{
    size_t size = fread(image, 1, sizeof image, stdin), code[2], fault, m;
    uint32_t header[UVIKTALIK_HEADER_WORDS], regs[UVIKTALIK_REGISTERS] = {0};
    uint8_t number = uviktalik_read(image, size, header, code, &fault), reason;
    if (number != UVIKTALIK_ACCEPTED)
        return refused(number, fault);
    m = header[UVIKTALIK_HEADER_M];
    regs[UVIKTALIK_FRAME_REGISTER] = header[UVIKTALIK_HEADER_M];
    number = uviktalik_begin(image, size, regs, mem, m, vbits, m, abits, m, state, &fault);
    if (number != UVIKTALIK_ACCEPTED)
        return refused(number, fault);
    number = uviktalik_run(image, size, state, mem, m, vbits, m, abits, m, reports,
                           UVIKTALIK_MAX_REPORT_LIST, outputs, UVIKTALIK_MAX_OUTPUT_LIST,
                           UVIKTALIK_MAX_STEPS, &reason, &fault);
    if (number != UVIKTALIK_ACCEPTED)
        return refused(number, fault);
    print_reports();
    print_outputs();
    printf("end %u steps %u reports %u outputs %u\n", reason, state[UVIKTALIK_STATE_STEPS],
           state[UVIKTALIK_STATE_REPORTS], state[UVIKTALIK_STATE_OUTPUTS]);
    return 0;
}
