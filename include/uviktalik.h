/*
 * The checker's calls for C and whatever speaks C's calling convention:
 *
 *   uviktalik_read     reads an image: its sizes, and where its code lies
 *   uviktalik_begin    sets out memory, V bits, A bits and a state as the image says
 *   uviktalik_run      runs the program on from a state and reports each use of an undefined bit
 *   uviktalik_write    writes an image from memory's size, instructions, regions and data
 *   uviktalik_command  hands an output that was made on as a damper command, or as blocked
 *
 * `tools/build capi` proves and builds them into target/staticlib/libcapi.a. They need no other
 * library but the C library's memset, allocate nothing and keep nothing between calls, so threads
 * may call at the same time, each with buffers of its own. examples/embed.c,
 * assemble.c and damper.c are whole programs.
 *
 * WHAT IS PROMISED. A call takes any bytes as an image, any words as a state, as instructions, as
 * regions and as outputs, any budget and number, and buffers and lists of any size. It checks all
 * of it itself, ends, and leaves every byte and word that it was lent as is said at the call below,
 * whether it accepts or refuses. This is proved for every input; the formal statement is the
 * contracts in crates/capi_c/src/lib.rt, over the definitions of crates/capi/specs/Promises.antt.
 * What an image holds, what an instruction does and what an output means are the machine's rules
 * (documents 01 and 02; crates/image/specs, crates/writer/specs, crates/rules/specs,
 * crates/machine/specs, crates/commands/specs). No answer depends on the processor's modes for
 * floats, as a program linked with -ffast-math changes them (tests/modes.c).
 *
 * WHAT IS ASKED, which no call can check, and without which nothing is promised:
 *   - A pointer refers to as many elements as the size after it says, an array parameter to as many
 *     as are written there, any other pointer to one. Sizes count elements: BYTES of image, mem,
 *     vbits, abits, data and out, WORDS of reports, outputs, instructions and regions (not entries,
 *     and not bytes).
 *   - What a call writes overlaps nothing else that it is lent: no two buffers or lists share
 *     memory, but those that it only reads (image, regs, instructions, regions, data, and the
 *     outputs of a command) may. So regs is no part of the state that beginning writes, and the
 *     places of a command's kind and bits are none of the outputs' words.
 *   - No pointer is null, not even beside a size of 0. As the library is built now, NULL beside a
 *     size of 0 does what any other pointer does there: it is not followed, and the compiler was
 *     not told that pointers are not null. The gate tries it (tests/null.c); no proof speaks of it.
 *   - There is stack enough. As built now, and measured, not proved, a run takes 1,008 bytes
 *     besides its arguments, beginning 480, reading 224, writing 224 and a command 16, whatever
 *     the sizes are, and what memset takes. A program that binds it only when it is first called
 *     needs some 3,000 bytes more for that.
 */
#ifndef UVIKTALIK_H
#define UVIKTALIK_H

#include <stddef.h>
#include <stdint.h>

#ifdef __cplusplus
extern "C" {
#endif

/*
 * The version: which parameters the calls have, which words a state and a list's entry, and what
 * the limits are, by which programs size their buffers. It is part of the symbols' names, so that
 * a program that was compiled for another version does not link (undefined reference to
 * `uviktalik_run_..') instead of writing past its buffers. The machine's rules are not in it:
 * under the same version another library may have more calls, instructions, refusals, stop reasons
 * and kinds of report and of command, may refuse an image that this one accepts, and may have
 * finer rules for V bits, by which it reports less. A program that loads the library while it runs
 * asks for the symbols below by their whole names.
 */
#define UVIKTALIK_VERSION 2
#define uviktalik_read uviktalik_read_2
#define uviktalik_begin uviktalik_begin_2
#define uviktalik_run uviktalik_run_2
#define uviktalik_write uviktalik_write_2
#define uviktalik_command uviktalik_command_2

/* Limits. M, N, R and D are an image's sizes. */
enum {
    UVIKTALIK_REGISTERS = 16,
    UVIKTALIK_FRAME_REGISTER = 15,     /* defined at a beginning; no instruction may write it */
    UVIKTALIK_PORTS = 8,               /* output ports: 0 to 7 */
    UVIKTALIK_MAX_MEMORY = 8192,       /* M, the bytes of memory: 1 to this */
    UVIKTALIK_MAX_INSTRUCTIONS = 2048, /* N, the instructions: 1 to this */
    UVIKTALIK_MAX_REGIONS = 32,        /* R, the regions of memory: 0 to this */
    UVIKTALIK_MAX_DATA = 8192,         /* D, the bytes that fill regions: 0 to this */
    UVIKTALIK_MAX_IMAGE = 24992,       /* the bytes of an image */
    UVIKTALIK_MAX_STEPS = 1000000,     /* the steps of all runs after a beginning */
    UVIKTALIK_MAX_REPORT_LIST = 256,   /* the words of a report list: 64 reports */
    UVIKTALIK_MAX_OUTPUT_LIST = 512    /* the words of an output list: 256 outputs */
};

/* The numbers that reading leaves of an image. */
enum {
    UVIKTALIK_HEADER_M = 0,
    UVIKTALIK_HEADER_N = 1,
    UVIKTALIK_HEADER_R = 2,
    UVIKTALIK_HEADER_D = 3,
    UVIKTALIK_HEADER_WORDS = 4 /* how many words there are */
};
enum {
    UVIKTALIK_CODE_START = 0, /* where the code begins in the image */
    UVIKTALIK_CODE_SIZE = 1   /* how many bytes it has */
};

/* The words of a state. A bit of a V word is 1 where the register's bit is undefined. */
enum {
    UVIKTALIK_STATE_REGS = 0,     /* 16 registers */
    UVIKTALIK_STATE_REGS_V = 16,  /* their 16 V words */
    UVIKTALIK_STATE_INDEX = 32,   /* the next instruction's index */
    UVIKTALIK_STATE_STEPS = 33,   /* steps taken */
    UVIKTALIK_STATE_OUTPUTS = 34, /* outputs made */
    UVIKTALIK_STATE_REPORTS = 35, /* reports made, those without a place too */
    UVIKTALIK_STATE_WORDS = 36    /* how many words there are */
};

/* The words of an entry of the report list. */
enum {
    UVIKTALIK_REPORT_STEPS = 0,  /* steps taken before the one that reports */
    UVIKTALIK_REPORT_INDEX = 1,  /* the instruction's index */
    UVIKTALIK_REPORT_KIND = 2,   /* one of UVIKTALIK_KIND_.. */
    UVIKTALIK_REPORT_DETAIL = 3, /* what the kind says */
    UVIKTALIK_REPORT_WORDS = 4   /* how many words there are */
};

/* The words of an entry of the output list. */
enum {
    UVIKTALIK_OUTPUT_PORT = 0,
    UVIKTALIK_OUTPUT_VALUE = 1,
    UVIKTALIK_OUTPUT_WORDS = 2 /* how many words there are */
};

/*
 * The words of an instruction and of a region, as writing takes them. The first word of an
 * instruction has its bytes op, d, a, b from the lowest on:
 *   op | d << 8 | a << 16 | (uint32_t)b << 24
 * MOV 2 with the literal 5 (b 255) is 0xFF000201, 5.
 */
enum {
    UVIKTALIK_INSTRUCTION_FIELDS = 0, /* op, d, a, b */
    UVIKTALIK_INSTRUCTION_IMM = 1,
    UVIKTALIK_INSTRUCTION_WORDS = 2 /* how many words there are */
};
enum {
    UVIKTALIK_REGION_START = 0,
    UVIKTALIK_REGION_LENGTH = 1,
    UVIKTALIK_REGION_KIND = 2, /* one of the two below */
    UVIKTALIK_REGION_WORDS = 3 /* how many words there are */
};
enum {
    UVIKTALIK_FILLED = 1,   /* its bytes are the next ones of the data */
    UVIKTALIK_UNDEFINED = 2 /* addressable but undefined; the data has no bytes for it */
};

/* The kinds of report: what was used, and what the detail is. */
enum {
    UVIKTALIK_KIND_UNDEFINED_ADDRESS = 1,   /* an address, by a load or store; its V word */
    UVIKTALIK_KIND_UNDEFINED_CONDITION = 2, /* a condition, by a jump; its V word */
    UVIKTALIK_KIND_UNADDRESSABLE_LOAD = 3,  /* an unaddressable byte; the load's address */
    UVIKTALIK_KIND_UNADDRESSABLE_STORE = 4, /* an unaddressable byte; the store's address */
    UVIKTALIK_KIND_UNDEFINED_OUTPUT = 5     /* an output; its V word */
};

/* Why a run ended. It looks before each step, in the order 2, 1, 4, 3; an end takes no step. */
enum {
    UVIKTALIK_REASON_NONE = 0,      /* the run was refused */
    UVIKTALIK_REASON_STOPPED = 1,   /* the next instruction is STOP */
    UVIKTALIK_REASON_PAST_END = 2,  /* the index is N, past the last instruction */
    UVIKTALIK_REASON_NO_BUDGET = 3, /* as many steps were taken as the budget has */
    UVIKTALIK_REASON_NO_PLACE = 4   /* the next instruction puts out, and the output list is full */
};

/*
 * The kinds of damper command: what an output means, and what its bits are. A rate is a 32-bit
 * float (copy the bits with memcpy; a cast would convert the number). Ports 0, 1 and 2 have a gate
 * each, whose ends are allowed. Minus zero passes, and its bits are kept.
 */
enum {
    UVIKTALIK_COMMAND_NONE = 0,    /* none: the call was refused; 0 */
    UVIKTALIK_COMMAND_BUMP = 1,    /* port 0, a rate from 0 to 8000; the rate's bits */
    UVIKTALIK_COMMAND_REBOUND = 2, /* port 1, a rate from 0 to 8000; the rate's bits */
    UVIKTALIK_COMMAND_PRELOAD = 3, /* port 2, a rate from 0 to 40; the rate's bits */
    UVIKTALIK_COMMAND_BLOCKED = 4  /* port 3 to 7, or a value that is not a number or lies
                                      outside its port's gate; the port */
};

/*
 * What a call returns: 0, or the number of its refusal, the first of these that applies. *fault, in
 * the calls that have it, gets the lowest index at fault, of the instruction (5) or of the region
 * (6), else 0.
 */
enum {
    UVIKTALIK_ACCEPTED = 0,
    UVIKTALIK_REFUSED_TOO_SHORT = 1,       /* the image has under 32 bytes */
    UVIKTALIK_REFUSED_WRONG_MAGIC = 2,     /* its first four bytes are not 54 55 4E 31 */
    UVIKTALIK_REFUSED_OUT_OF_LIMITS = 3,   /* M, N, R or D is out of its limits; writing: or a
                                              list ends in a part of an entry */
    UVIKTALIK_REFUSED_WRONG_LAYOUT = 4,    /* an offset or the length is not as computed */
    UVIKTALIK_REFUSED_BAD_INSTRUCTION = 5, /* an instruction breaks its row, has none, or
                                              writes register 15 */
    UVIKTALIK_REFUSED_BAD_REGION = 6,      /* a region breaks its rules */
    UVIKTALIK_REFUSED_WRONG_SUM = 7,       /* D is not the sum of the filled regions' lengths */
    UVIKTALIK_REFUSED_WRONG_SIZE = 8,      /* mem, vbits or abits not of M bytes; a list not
                                              of whole entries, or above its limit */
    UVIKTALIK_REFUSED_TOO_MANY_STEPS = 9,  /* steps taken plus budget above UVIKTALIK_MAX_STEPS */
    UVIKTALIK_REFUSED_WRONG_MARK = 10,     /* an A byte above 1 */
    UVIKTALIK_REFUSED_WRONG_COUNT = 11,    /* index above N, outputs above their places, or
                                              reports above twice the steps */
    UVIKTALIK_REFUSED_NO_ROOM = 12,        /* out is shorter than the image */
    UVIKTALIK_REFUSED_WRONG_OUTPUTS = 13   /* the outputs are not of whole entries, are above
                                              UVIKTALIK_MAX_OUTPUT_LIST words, or have a port
                                              word above 7; or number is not one of them */
};

/* UVIKTALIK_VERSION of the library that is linked or loaded. This name has no version and stays. */
uint32_t uviktalik_version(void);

/*
 * Reads an image. Refusals 1 to 7.
 *            accepted                                     refused
 *   header   M, N, R and D                                zeros
 *   code     where the code begins, how many bytes it     zeros
 *            has: 32 and 8 N
 *   *fault   0                                            the index at fault, or 0
 */
uint8_t uviktalik_read(const uint8_t *image, size_t image_size,
                       uint32_t header[UVIKTALIK_HEADER_WORDS], size_t code[2], size_t *fault);

/*
 * Begins a program. regs are the registers' values; mem, vbits and abits have M bytes each.
 * Refusals 1 to 8.
 *            accepted                                     refused
 *   mem      bytes of a filled region: the image's        as it was
 *            data; all others as they were
 *   vbits    a bit is 1 where memory's is undefined:      as it was
 *            0 for a filled region's bytes, else 255
 *   abits    1 where a byte is addressable: in a          as it was
 *            region, filled or undefined; else 0
 *   state    the values of regs; V words of all ones,     zeros
 *            but 0 for register 15; index and counts 0
 *   *fault   0                                            the index at fault, or 0
 */
uint8_t uviktalik_begin(const uint8_t *image, size_t image_size,
                        const uint32_t regs[UVIKTALIK_REGISTERS], uint8_t *mem, size_t mem_size,
                        uint8_t *vbits, size_t vbits_size, uint8_t *abits, size_t abits_size,
                        uint32_t state[UVIKTALIK_STATE_WORDS], size_t *fault);

/*
 * Runs a program from a state, any state, until there is a reason to stop: for at most as many
 * steps as the budget says. It may be continued from what it left. Refusals 1 to 11.
 *            accepted                                     refused
 *   state    after the last step: registers and V         as it was
 *            words by the rules, the value of register
 *            15 as it was; index; counts gone up by the
 *            steps, outputs and reports made
 *   mem, vbits, abits
 *            after the last step, by the rules; a byte    as they were
 *            that no step wrote as it was
 *   reports  report number k (from 0, over all runs) at   as it was
 *            words 4 k to 4 k + 3, if the list has them;
 *            all other words as they were. The count
 *            goes on past the places: compare it with
 *            the list's size before you read the list
 *   outputs  output number k at words 2 k and 2 k + 1;    as it was
 *            all other words as they were
 *   *reason  why it ended, 1 to 4                         0
 *   *fault   0                                            the index at fault, or 0
 */
uint8_t uviktalik_run(const uint8_t *image, size_t image_size,
                      uint32_t state[UVIKTALIK_STATE_WORDS], uint8_t *mem, size_t mem_size,
                      uint8_t *vbits, size_t vbits_size, uint8_t *abits, size_t abits_size,
                      uint32_t *reports, size_t reports_size, uint32_t *outputs,
                      size_t outputs_size, uint32_t budget, uint8_t *reason, size_t *fault);

/*
 * Writes the image of m bytes of memory, instructions of two words each, regions of three words
 * each, and the data that fills regions, in the regions' order: M is m, N instructions_size / 2, R
 * regions_size / 3, D data_size. Refusals 3, 5, 6 and 7 as reading that image would give them, then
 * 12; UVIKTALIK_MAX_IMAGE bytes of out are always enough.
 *            accepted                                     refused
 *   out      the image; bytes past it as they were        as it was
 *   *size    the image's bytes: 32 + 8 N + 12 R + D       0
 *   *fault   0                                            the index at fault, or 0
 * Reading accepts what was written (the first *size bytes of out, not all of it if there is more),
 * and finds in it what went in. An accepted image that is taken apart and written again has the
 * same bytes.
 */
uint8_t uviktalik_write(uint32_t m, const uint32_t *instructions, size_t instructions_size,
                        const uint32_t *regions, size_t regions_size, const uint8_t *data,
                        size_t data_size, uint8_t *out, size_t out_size, size_t *size,
                        size_t *fault);

/*
 * Hands output number `number`, from 0, on as a damper command. outputs are the outputs made and
 * nothing else: of the list that a run was lent the first
 * UVIKTALIK_OUTPUT_WORDS * state[UVIKTALIK_STATE_OUTPUTS] words. The call cannot tell a place that
 * no run wrote from an output: given the whole list, zeros there would be bump 0. Every port word
 * is looked at, whichever output is asked for. Nothing is known here of reports: the outputs of a
 * program that was reported are none to act on (examples/damper.c looks first). Refusal 13.
 *            accepted                                     refused
 *   *kind    what it is: UVIKTALIK_COMMAND_BUMP to        UVIKTALIK_COMMAND_NONE, which is 0
 *            UVIKTALIK_COMMAND_BLOCKED
 *   *bits    the rate's bits, which are the output's      0
 *            value; the port, if it is blocked
 */
uint8_t uviktalik_command(const uint32_t *outputs, size_t outputs_size, size_t number,
                          uint8_t *kind, uint32_t *bits);

#ifdef __cplusplus
}
#endif

#endif
