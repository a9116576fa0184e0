/* Performs each of the checker's operations on partly undefined words with the processor's own
 * instruction under Memcheck, and prints what Memcheck makes of the V bits, one line per case. */
#include <stdint.h>
#include <stdio.h>
#include <stdlib.h>
#include <string.h>
#include <valgrind/memcheck.h>

#include "vbits.h"

/* The words of a case: x and y side by side are also the memory that loads read, r that stores
 * write. An operation takes x (and y), at the byte offset for loads and stores, and leaves r. */
struct Words {
    uint32_t x, y, r[2];
    uint64_t offset;
} __attribute__((aligned(16)));

typedef void (*Operation)(struct Words *);

/* name, instruction, kind of second operand, what brings the result to eax. */
#define OPERATIONS(X)                                         \
    X(MOV, "movl ", WORD, "")                                 \
    X(ADD, "addl ", WORD, "")                                 \
    X(SUB, "subl ", WORD, "")                                 \
    X(MUL, "imull ", WORD, "")                                \
    X(AND, "andl ", WORD, "")                                 \
    X(OR, "orl ", WORD, "")                                   \
    X(XOR, "xorl ", WORD, "")                                 \
    X(SHL, "shll ", COUNT, "")                                \
    X(SHR, "shrl ", COUNT, "")                                \
    X(SAR, "sarl ", COUNT, "")                                \
    X(EQ, "cmpl ", WORD, "sete %%al\n\tmovzbl %%al,%%eax\n\t") \
    X(LTU, "cmpl ", WORD, "setb %%al\n\tmovzbl %%al,%%eax\n\t")

#define WORD_PAIR "%%ecx,%%eax\n\t"
#define WORD_SAME "%%eax,%%eax\n\t"
#define COUNT_PAIR "%%cl,%%eax\n\t"
#define COUNT_SAME "%%cl,%%ecx\n\tmovl %%ecx,%%eax\n\t"

/* The literals; 0x80808080 and 0xFEFEFEFF are among those that make mode auto track carries. */
#define WORD_LITERALS(X, ...)                                                       \
    X(0x0, __VA_ARGS__) X(0x1, __VA_ARGS__) X(0x2, __VA_ARGS__) X(0x3, __VA_ARGS__) \
    X(0xF, __VA_ARGS__) X(0x10, __VA_ARGS__) X(0x80, __VA_ARGS__)                   \
    X(0xFF00, __VA_ARGS__) X(0x12345678, __VA_ARGS__) X(0x55555555, __VA_ARGS__)    \
    X(0x7FFFFFFF, __VA_ARGS__) X(0x80000000, __VA_ARGS__)                           \
    X(0x80808080, __VA_ARGS__) X(0xFEFEFEFF, __VA_ARGS__)                           \
    X(0xFFFFFFF0, __VA_ARGS__) X(0xFFFFFFFF, __VA_ARGS__)
#define COUNT_LITERALS(X, ...)                                                      \
    X(0, __VA_ARGS__) X(1, __VA_ARGS__) X(2, __VA_ARGS__) X(4, __VA_ARGS__)         \
    X(7, __VA_ARGS__) X(8, __VA_ARGS__) X(15, __VA_ARGS__) X(16, __VA_ARGS__)       \
    X(24, __VA_ARGS__) X(30, __VA_ARGS__) X(31, __VA_ARGS__) X(32, __VA_ARGS__)     \
    X(33, __VA_ARGS__) X(63, __VA_ARGS__) X(255, __VA_ARGS__)

#define FUNCTION(function, instructions)                                            \
    static void function(struct Words *c) {                                         \
        __asm__ volatile("movl %1,%%eax\n\tmovl %2,%%ecx\n\t" instructions          \
                         "movl %%eax,%0"                                            \
                         : "=m"(c->r[0]) : "m"(c->x), "m"(c->y)                     \
                         : "eax", "ecx", "cc", "memory");                           \
    }
#define LITERAL_FUNCTION(literal, name, instruction, result) \
    FUNCTION(name##_##literal, instruction "$" #literal ",%%eax\n\t" result)
#define FUNCTIONS(name, instruction, kind, result)         \
    FUNCTION(name##_pair, instruction kind##_PAIR result)  \
    FUNCTION(name##_same, instruction kind##_SAME result)  \
    kind##_LITERALS(LITERAL_FUNCTION, name, instruction, result)
OPERATIONS(FUNCTIONS)

/* name, bytes, direction, instruction (a store's with its register). */
#define ACCESSES(X)                 \
    X(LD8, 1, LOAD, "movzbl ")      \
    X(LD32, 4, LOAD, "movl ")       \
    X(ST8, 1, STORE, "movb %%al")   \
    X(ST32, 4, STORE, "movl %%eax") \
    X(LD16, 2, LOAD, "movzwl ")     \
    X(LDS8, 1, LOAD, "movsbl ")     \
    X(LDS16, 2, LOAD, "movswl ")    \
    X(ST16, 2, STORE, "movw %%ax")

#define LOAD_BY(instruction) instruction "(%0,%1),%%eax\n\tmovl %%eax,8(%0)"
#define STORE_BY(instruction) "movl (%0),%%eax\n\t" instruction ",8(%0,%1)"
#define ACCESS_FUNCTION(name, bytes, direction, instruction)             \
    static void name##_at(struct Words *c) {                             \
        __asm__ volatile(direction##_BY(instruction)                     \
                         : : "r"(c), "r"(c->offset) : "eax", "memory");  \
    }
ACCESSES(ACCESS_FUNCTION)

struct Literal {
    uint32_t value;
    Operation apply;
};

struct Entry {
    const char *name;
    int is_shift;
    Operation pair, same;
    const struct Literal *literals;
    size_t literal_count;
};

#define LITERAL_ROW(literal, name) {literal, name##_##literal},
#define LITERAL_TABLE(name, instruction, kind, result) \
    static const struct Literal name##_literals[] = {kind##_LITERALS(LITERAL_ROW, name)};
OPERATIONS(LITERAL_TABLE)

enum { WORD, COUNT };
#define ENTRY(name, instruction, kind, result) \
    {#name, kind, name##_pair, name##_same, name##_literals, LENGTH(name##_literals)},
static const struct Entry operations[] = {OPERATIONS(ENTRY)};

/* Loads and stores: places is the number of offsets within the eight bytes. */
enum { LOAD, STORE };
#define ACCESS_ROW(name, bytes, direction, instruction) {#name, name##_at, 9 - bytes, direction},
static const struct {
    const char *name;
    Operation apply;
    uint32_t places;
    int is_store;
} accesses[] = {ACCESSES(ACCESS_ROW)};

/* Operands: data x, y and their V words v, w. */
struct Operands {
    uint32_t x, v, y, w;
};

static const uint32_t edge_v[] = {
    0, 0xFFFFFFFF, 0xFF, 0xFF000000, 0x80000000, 0x55555555, 0xAAAAAAAA, 0x00010000,
};
static const uint32_t data_pairs[][2] = {
    {0, 0}, {0xFFFFFFFF, 0xFFFFFFFF}, {0, 0xFFFFFFFF}, {0x12345678, 0x12345678},
    {0x0F0F3C5A, 0xF0F0C3A5}, {0x80000000, 0x7FFFFFFF}, {0x00FFFF01, 0x000000FF},
};

enum { MOST_OPERANDS = 8192 };
struct List {
    struct Operands items[MOST_OPERANDS];
    size_t count;
};

static void add(struct List *list, uint32_t x, uint32_t v, uint32_t y, uint32_t w) {
    if (list->count == MOST_OPERANDS) abort();
    list->items[list->count++] = (struct Operands){x, v, y, w};
}

static uint32_t seed = 0x2545F491;

static uint32_t random_word(void) {
    seed ^= seed << 13;
    seed ^= seed >> 17;
    seed ^= seed << 5;
    return seed;
}

/* A pseudo-random V word: sparse, dense, whole bytes, or a run of bits. */
static uint32_t random_v(uint32_t style) {
    uint32_t a = random_word(), b = random_word(), c = random_word();
    switch (style % 4) {
    case 0: return a & b & c & random_word();
    case 1: return a | b;
    case 2: return (a & 1) * 0xFF + (a >> 1 & 1) * 0xFF00 + (a >> 2 & 1) * 0xFF0000 +
                   (a >> 3 & 1) * 0xFF000000;
    default: return (0xFFFFFFFF >> (a & 31)) << (b & 31);
    }
}

/* Every single undefined bit of either operand, and the edge V words crossed. */
static void add_edges(struct List *list) {
    for (size_t d = 0; d < LENGTH(data_pairs); d++) {
        uint32_t x = data_pairs[d][0], y = data_pairs[d][1];
        for (uint32_t bit = 0; bit < 32; bit++) {
            add(list, x, 1u << bit, y, 0);
            add(list, x, 0, y, 1u << bit);
        }
        for (size_t i = 0; i < LENGTH(edge_v) * LENGTH(edge_v); i++)
            add(list, x, edge_v[i / LENGTH(edge_v)], y, edge_v[i % LENGTH(edge_v)]);
    }
}

/* Pseudo-random words, and pairs whose data are equal, differ in one defined bit and some
 * undefined ones, or differ in undefined bits only. */
static void add_random(struct List *list, uint32_t rounds) {
    for (uint32_t i = 0; i < rounds; i++) {
        uint32_t x = random_word(), v = random_v(i), w = random_v(i / 4);
        uint32_t blur = random_word() & (v | w), bit = 1u << (random_word() & 31);
        add(list, x, v, random_word(), w);
        add(list, x, v, x, w);
        add(list, x, v & ~bit, (x ^ blur) ^ (~blur & bit), w & ~bit);
        add(list, x, v, x ^ blur, w);
    }
}

/* Shift amounts 0 to 63 and large ones, with V clear, in bits 0 to 4 only, above only, in both. */
static void add_shifts(struct List *list) {
    static const uint32_t large[] = {64, 95, 255, 256, 0x11F, 0x8000, 0x80000000, 0xFFFFFFFF};
    for (uint32_t i = 0; i < 64 + LENGTH(large); i++) {
        uint32_t amount = i < 64 ? i : large[i - 64];
        for (uint32_t round = 0; round < 12; round++) {
            uint32_t low = (random_word() & 31) | 1u << (round % 5);
            uint32_t high = (random_v(round) & ~31u) | 1u << (5 + (i + round * 5) % 27);
            uint32_t bit = 1u << (i + 31 * round) % 32;
            uint32_t x = random_word(), v = round < 2 ? bit : random_v(round);
            add(list, x, v, amount, 0);
            add(list, x, v, amount, low);
            add(list, x, v, amount, high);
            add(list, x, v, amount, low | high);
        }
    }
}

static void put_hex(uint64_t word, int digits) {
    putchar_unlocked(' ');
    for (int shift = 4 * (digits - 1); shift >= 0; shift -= 4)
        putchar_unlocked("0123456789abcdef"[word >> shift & 15]);
}

void require(int answer, const char *what) {
    if (answer == 1) return;
    fprintf(stderr, "%s answered %d: run this under valgrind --tool=memcheck\n", what, answer);
    exit(3);
}

static uint64_t joined(const uint32_t words[2]) {
    return words[0] | (uint64_t)words[1] << 32;
}

/* Performs one operation on partly undefined words and prints its line: name, form (pair, same,
 * lit, or the offset of a load or store), x, v, y, w, result data, result V. */
static void run_case(const char *name, const char *form, Operation apply, struct Operands o,
                     uint32_t offset, int is_store) {
    struct Words c = {o.x, o.y, {o.y, o.y}, offset};
    uint32_t before[4] = {o.v, o.w, o.w, o.w}, after[2];
    int digits = is_store ? 16 : 8;
    require(VALGRIND_SET_VBITS(&c, before, sizeof before), "VALGRIND_SET_VBITS");
    apply(&c);
    require(VALGRIND_GET_VBITS(c.r, after, sizeof after), "VALGRIND_GET_VBITS");
    (void)VALGRIND_MAKE_MEM_DEFINED(&c, sizeof c);
    fputs(name, stdout);
    putchar_unlocked(' ');
    fputs(form, stdout);
    put_hex(o.x, 8);
    put_hex(o.v, 8);
    put_hex(o.y, 8);
    put_hex(o.w, 8);
    put_hex(joined(c.r), digits);
    put_hex(joined(after), digits);
    putchar_unlocked('\n');
}

/* Each of the few operands meets one register twice, and two literals of the operation's own. */
static void run_operation(const struct Entry *op, const struct List *pairs,
                          const struct List *few) {
    for (size_t i = 0; i < pairs->count; i++)
        run_case(op->name, "pair", op->pair, pairs->items[i], 0, 0);
    for (size_t i = 0; i < 2 * few->count; i++) {
        struct Operands o = few->items[i / 2];
        const struct Literal *literal = &op->literals[random_word() % op->literal_count];
        struct Operands with_literal = {o.x, o.v, literal->value, 0}, twice = {o.x, o.v, o.x, o.v};
        run_case(op->name, "lit", literal->apply, with_literal, 0, 0);
        if (i % 2 == 0) run_case(op->name, "same", op->same, twice, 0, 0);
    }
}

static void run_access(size_t which, const struct List *pairs) {
    for (size_t i = 0; i < pairs->count; i++) {
        uint32_t offset = random_word() % accesses[which].places;
        char form[2] = {(char)('0' + offset), 0};
        run_case(accesses[which].name, form, accesses[which].apply, pairs->items[i], offset,
                 accesses[which].is_store);
    }
}

static struct List pairs, few, shifts;

static void run_operations(void) {
    unsigned before = VALGRIND_COUNT_ERRORS;
    add_edges(&pairs);
    add_random(&pairs, 900);
    add_edges(&few);
    add_random(&few, 40);
    add_shifts(&shifts);
    for (size_t i = 0; i < LENGTH(operations); i++)
        run_operation(&operations[i], operations[i].is_shift ? &shifts : &pairs, &few);
    for (size_t i = 0; i < LENGTH(accesses); i++)
        run_access(i, &pairs);
    printf("operations errors %u\n", VALGRIND_COUNT_ERRORS - before);
}

/* With the argument "events", prints the events alone. */
int main(int count, char **arguments) {
    if (count < 2 || strcmp(arguments[1], "events") != 0) run_operations();
    run_events();
    return 0;
}
