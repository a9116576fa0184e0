/* An image written from C: the program of mended.txt, to standard output. Macros make the words
 * of an instruction, jumps go to names, and the writer sees to offsets, sizes and every rule.
 * README.md says how to build it. */
#include <stdio.h>

#include "../include/uviktalik.h"

/* The ops that the program uses. */
enum {
    STOP = 0,
    MOV = 1,
    ADD = 2,
    SUB = 3,
    MUL = 4,
    EQ = 11,
    LD8 = 13,
    LD32 = 14,
    ST32 = 16,
    JNZ = 17,
    EMIT = 18
};

/* The two words of an instruction: the bytes op, d, a, b from the lowest on, then imm. */
#define FIELDS(op, d, a, b) ((op) | (uint32_t)(d) << 8 | (uint32_t)(a) << 16 | (uint32_t)(b) << 24)
#define ROW(op, d, a, b, imm) FIELDS(op, d, a, b), (imm)
/* The second operand is a register, or the literal imm. */
#define BY_REGISTER(op, d, a, b) ROW(op, d, a, b, 0)
#define BY_LITERAL(op, d, a, imm) ROW(op, d, a, 255, imm)
#define ACCESS(op, d, a, imm) ROW(op, d, a, 0, imm)
#define ON(op, a, imm) ROW(op, 0, a, 0, imm)

/* Where the program jumps to. */
enum { CHARACTER = 5, POINT = 17, RESULT = 20 };
/* Where memory has the text and the scale. */
enum { TEXT = 0, SCALE = 8 };

static const uint32_t instructions[] = {
    BY_LITERAL(MOV, 0, 0, 0),       /* r0: base of the addresses */
    BY_LITERAL(MOV, 1, 0, TEXT),    /* r1: address of the next character */
    BY_LITERAL(MOV, 2, 0, 0),       /* r2: the digits so far, as a number */
    BY_LITERAL(MOV, 5, 0, 1000),    /* a whole number: its last digit is 1000 thousandths */
    ACCESS(ST32, 5, 0, SCALE),      /* the scale, until a comma or point changes it */
    ACCESS(LD8, 3, 1, 0),           /* CHARACTER; r3: the character */
    BY_LITERAL(ADD, 1, 1, 1),       /* on to the next */
    BY_LITERAL(EQ, 4, 3, ','),      /* a comma? */
    ON(JNZ, 4, POINT),              /* a decimal comma: as a point */
    BY_LITERAL(EQ, 4, 3, '.'),      /* a point? */
    ON(JNZ, 4, POINT),              /* to the branch that changes the scale */
    BY_LITERAL(EQ, 4, 3, '\0'),     /* the end of the text? */
    ON(JNZ, 4, RESULT),             /* to the result */
    BY_LITERAL(MUL, 2, 2, 10),      /* a digit: shift the others up */
    BY_REGISTER(ADD, 2, 2, 3),      /* add its character */
    BY_LITERAL(SUB, 2, 2, '0'),     /* and take off that of 0 */
    ON(JNZ, 1, CHARACTER),          /* next character; r1 is never 0 here */
    BY_LITERAL(MOV, 5, 0, 100),     /* POINT; one decimal: a last digit is 100 thousandths */
    ACCESS(ST32, 5, 0, SCALE),      /* the new scale */
    ON(JNZ, 1, CHARACTER),          /* next character */
    ACCESS(LD32, 6, 0, SCALE),      /* RESULT; r6: the scale */
    BY_REGISTER(MUL, 7, 2, 6),      /* r7: the damping in thousandths */
    ON(EMIT, 7, 2),                 /* put out at port 2 */
    ROW(STOP, 0, 0, 0, 0),
};
static const uint32_t regions[] = {
    TEXT,  4, UVIKTALIK_FILLED,    /* the text */
    SCALE, 4, UVIKTALIK_UNDEFINED, /* the scale */
};
static const uint8_t text[] = "1,5"; /* and the end of the text */

#define WORDS(list) (sizeof(list) / sizeof *(list))

static uint8_t image[UVIKTALIK_MAX_IMAGE];

int main(void)
{
    size_t size, fault;
    uint8_t number = uviktalik_write(16, instructions, WORDS(instructions), regions, WORDS(regions),
                                     text, sizeof text, image, sizeof image, &size, &fault);
    if (number != UVIKTALIK_ACCEPTED) {
        fprintf(stderr, "refused %u at %zu\n", number, fault);
        return 1;
    }
    return fwrite(image, 1, size, stdout) != size || fflush(stdout) != 0;
}
