/* NULL beside a size of 0, which no contract speaks of (include/uviktalik.h): as the library is
 * built now it does what any other pointer does there. An accepted image that puts out comes on
 * standard input; what is not so is said, and the exit status is then 1. */
#include <stdio.h>
#include <string.h>

#include "../include/uviktalik.h"

enum { MEM, VBITS, ABITS, BUFFERS };

static uint8_t image[UVIKTALIK_MAX_IMAGE], memory[BUFFERS][UVIKTALIK_MAX_MEMORY];
static uint32_t header[UVIKTALIK_HEADER_WORDS], regs[UVIKTALIK_REGISTERS];
static uint32_t state[UVIKTALIK_STATE_WORDS];
static uint32_t report_list[UVIKTALIK_MAX_REPORT_LIST], output_list[UVIKTALIK_MAX_OUTPUT_LIST];
static size_t code[2], fault, written;
static uint8_t reason;
static int status;

/* What is lent to a call. */
struct bytes {
    uint8_t *at;
    size_t size;
};
struct words {
    uint32_t *at;
    size_t size;
};
static const struct bytes no_bytes = {NULL, 0};
static const struct words no_words = {NULL, 0};
static struct bytes buffers[BUFFERS];

static void expect(int ok, const char *what)
{
    if (!ok) {
        printf("%s: something else\n", what);
        status = 1;
    }
}

static uint8_t begin(struct bytes from)
{
    return uviktalik_begin(from.at, from.size, regs, buffers[MEM].at, buffers[MEM].size,
                           buffers[VBITS].at, buffers[VBITS].size, buffers[ABITS].at,
                           buffers[ABITS].size, state, &fault);
}

static uint8_t run(struct bytes from, struct words reports, struct words outputs)
{
    return uviktalik_run(from.at, from.size, state, buffers[MEM].at, buffers[MEM].size,
                         buffers[VBITS].at, buffers[VBITS].size, buffers[ABITS].at,
                         buffers[ABITS].size, reports.at, reports.size, outputs.at, outputs.size,
                         UVIKTALIK_MAX_STEPS, &reason, &fault);
}

static uint8_t write_stop(struct words instructions, struct bytes out)
{
    return uviktalik_write(1, instructions.at, instructions.size, NULL, 0, NULL, 0, out.at,
                           out.size, &written, &fault);
}

static void try_writing(void)
{
    static uint32_t stop[UVIKTALIK_INSTRUCTION_WORDS];
    static uint8_t smallest[40];
    const struct words instructions = {stop, UVIKTALIK_INSTRUCTION_WORDS};
    const struct bytes out = {smallest, sizeof smallest};
    expect(write_stop(no_words, out) == UVIKTALIK_REFUSED_OUT_OF_LIMITS, "write nothing");
    expect(write_stop(instructions, no_bytes) == UVIKTALIK_REFUSED_NO_ROOM, "write to nothing");
    expect(written == 0, "the size of what was refused");
    expect(write_stop(instructions, out) == UVIKTALIK_ACCEPTED, "write without regions and data");
    expect(written == sizeof smallest, "the size of the smallest image");
    expect(uviktalik_read(smallest, written, header, code, &fault) == UVIKTALIK_ACCEPTED,
           "read what was written");
}

static void try_handing_on(void)
{
    uint8_t kind = UVIKTALIK_COMMAND_BLOCKED;
    uint32_t bits = 7;
    expect(uviktalik_command(NULL, 0, 0, &kind, &bits) == UVIKTALIK_REFUSED_WRONG_OUTPUTS,
           "hand nothing on");
    expect(kind == UVIKTALIK_COMMAND_NONE && bits == 0, "the command that was refused");
}

int main(void)
{
    const struct words reports = {report_list, UVIKTALIK_MAX_REPORT_LIST};
    const struct words outputs = {output_list, UVIKTALIK_MAX_OUTPUT_LIST};
    struct bytes from = {image, 0}, kept;
    uint32_t listed[UVIKTALIK_STATE_WORDS];
    int k;
    from.size = fread(image, 1, sizeof image, stdin);

    expect(uviktalik_read(NULL, 0, header, code, &fault) == UVIKTALIK_REFUSED_TOO_SHORT, "read");
    expect(begin(no_bytes) == UVIKTALIK_REFUSED_TOO_SHORT, "begin with nothing");
    expect(run(no_bytes, no_words, no_words) == UVIKTALIK_REFUSED_TOO_SHORT, "run with nothing");

    expect(uviktalik_read(image, from.size, header, code, &fault) == UVIKTALIK_ACCEPTED, "image");
    for (k = 0; k < BUFFERS; k++) {
        buffers[k].at = memory[k];
        buffers[k].size = header[UVIKTALIK_HEADER_M];
    }
    for (k = 0; k < BUFFERS; k++) {
        kept = buffers[k];
        buffers[k] = no_bytes;
        expect(begin(from) == UVIKTALIK_REFUSED_WRONG_SIZE, "begin without a buffer");
        expect(run(from, reports, outputs) == UVIKTALIK_REFUSED_WRONG_SIZE, "run without a buffer");
        buffers[k] = kept;
    }

    expect(begin(from) == UVIKTALIK_ACCEPTED, "begin");
    expect(run(from, reports, outputs) == UVIKTALIK_ACCEPTED, "run");
    memcpy(listed, state, sizeof state);
    begin(from);
    expect(run(from, no_words, outputs) == UVIKTALIK_ACCEPTED, "run without a report list");
    expect(memcmp(state, listed, sizeof state) == 0, "the state without a report list");
    begin(from);
    expect(run(from, reports, no_words) == UVIKTALIK_ACCEPTED, "run without an output list");
    expect(reason == UVIKTALIK_REASON_NO_PLACE, "the end without an output list");
    try_writing();
    try_handing_on();
    return status;
}
