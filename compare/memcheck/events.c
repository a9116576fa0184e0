/* Lets each event happen under Memcheck and prints what it reported and left, one line per event. */
#include <fcntl.h>
#include <stdint.h>
#include <stdio.h>
#include <stdlib.h>
#include <unistd.h>
#include <valgrind/memcheck.h>

#include "vbits.h"

/* What an event works on: pointer leads to memory, value is an operand; result, kept and memory
 * are looked at afterwards. */
struct Scene {
    uint64_t pointer, kept;
    uint32_t value, result, memory[2];
};

#define SCENE_FUNCTION(function, instructions)                            \
    static void function(struct Scene *s) {                               \
        __asm__ volatile(instructions "\n" : : "r"(s)                     \
                         : "rax", "rcx", "rdx", "cc", "memory");          \
    }
#define POINTER "movq (%0),%%rax\n\t"
#define LOAD "movl (%%rax),%%ecx\n\t"
#define LOAD_SIGNED_HALF "movswl (%%rax),%%ecx\n\t"
#define STORE_BYTE "movb %%cl,(%%rax)\n\t"
#define STORE_HALF "movw %%cx,(%%rax)\n\t"
#define KEEP "movq %%rax,8(%0)\n\t"
#define VALUE "movl 16(%0),%%ecx\n\t"
#define RESULT "movl %%ecx,20(%0)\n\t"
#define ZERO "cmpl $0,%%ecx\n\tsete %%cl\n\tmovzbl %%cl,%%ecx\n\t"
#define ADDED "addl $16,%%ecx\n\t"
#define LESS "subl $16,%%ecx\n\t"
#define UPPER "shrl $16,%%ecx\n\t"
#define JUMP "testl %%ecx,%%ecx\n\tjnz 1f\n\tnop\n1:\n\t"
#define NEXT_BLOCK "leaq 1f(%%rip),%%rdx\n\tjmp *%%rdx\n1:\n\t"
SCENE_FUNCTION(copy, VALUE "movl %%ecx,%%eax\n\tmovl %%eax,%%ecx\n\t" RESULT)
SCENE_FUNCTION(load, POINTER LOAD RESULT)
SCENE_FUNCTION(load_byte, POINTER "movzbl (%%rax),%%ecx\n\t" RESULT)
SCENE_FUNCTION(load_half, POINTER "movzwl (%%rax),%%ecx\n\t" RESULT)
SCENE_FUNCTION(load_signed_byte, POINTER "movsbl (%%rax),%%ecx\n\t" RESULT)
SCENE_FUNCTION(store, POINTER VALUE "movl %%ecx,(%%rax)")
SCENE_FUNCTION(store_byte, POINTER VALUE STORE_BYTE)
SCENE_FUNCTION(store_half, POINTER VALUE STORE_HALF)
SCENE_FUNCTION(load_keep, POINTER LOAD KEEP)
SCENE_FUNCTION(load_keep_later, POINTER LOAD NEXT_BLOCK KEEP)
SCENE_FUNCTION(load_past_keep, POINTER "movl 4(%%rax),%%ecx\n\t" KEEP)
SCENE_FUNCTION(load_twice, POINTER LOAD LOAD KEEP)
SCENE_FUNCTION(load_twice_later, POINTER LOAD NEXT_BLOCK LOAD KEEP)
SCENE_FUNCTION(jump, VALUE JUMP RESULT)
SCENE_FUNCTION(jump_twice, VALUE JUMP JUMP RESULT)
SCENE_FUNCTION(compare_jump, VALUE ZERO JUMP RESULT)
SCENE_FUNCTION(add_jump, VALUE ADDED UPPER JUMP RESULT)
SCENE_FUNCTION(sub_jump, VALUE LESS UPPER JUMP RESULT)
SCENE_FUNCTION(load_jump, POINTER LOAD JUMP RESULT)
/* A reading of two bytes, of which both, the low one or the top one were stored just before. */
SCENE_FUNCTION(signed_half_jump, POINTER VALUE STORE_HALF LOAD_SIGNED_HALF UPPER JUMP RESULT)
SCENE_FUNCTION(signed_from, POINTER VALUE STORE_BYTE LOAD_SIGNED_HALF RESULT)
SCENE_FUNCTION(signed_from_jump, POINTER VALUE STORE_BYTE LOAD_SIGNED_HALF UPPER JUMP RESULT)
SCENE_FUNCTION(signed_up_to, POINTER VALUE STORE_BYTE "movswl -1(%%rax),%%ecx\n\t" RESULT)

static void output(struct Scene *s) {
    int sink = open("/dev/null", O_WRONLY);
    if (write(sink, &s->value, sizeof s->value) != sizeof s->value || close(sink)) abort();
}

static void output_twice(struct Scene *s) {
    output(s);
    output(s);
}

static void reopen(struct Scene *s) {
    (void)VALGRIND_MAKE_MEM_NOACCESS(s->memory, sizeof s->memory[0]);
    (void)VALGRIND_MAKE_MEM_UNDEFINED(s->memory, sizeof s->memory[0]);
    load(s);
}

/* The pointer leads to memory plus offset, its low V bits are pointer_v; memory has a hole of
 * unaddressable bytes. Looked at is the word at look. */
enum Look { KEPT = 8, GIVEN = 16, LOADED = 20, STORED = 24 };
static const struct Event {
    const char *name;
    void (*happen)(struct Scene *);
    enum Look look;
    uint32_t pointer_v, value_v, offset, hole_at, hole;
} events[] = {
    {"copy", copy, LOADED, 0, 0x00FF0F01, 0, 0, 0},
    {"address-load", load, LOADED, 0x10, 0, 0, 0, 0},
    {"address-store", store, STORED, 0x10, 0x00FF0F01, 0, 0, 0},
    {"address-kept", load_keep, KEPT, 0x10, 0, 0, 0, 0},
    {"address-kept-later", load_keep_later, KEPT, 0x10, 0, 0, 0, 0},
    {"address-kept-offset", load_past_keep, KEPT, 0x10, 0, 0, 0, 0},
    {"address-twice", load_twice, KEPT, 0x10, 0, 0, 0, 0},
    {"address-twice-later", load_twice_later, KEPT, 0x10, 0, 0, 0, 0},
    {"jump", jump, LOADED, 0, 0xFFFFFFFF, 0, 0, 0},
    {"jump-twice", jump_twice, LOADED, 0, 0xFFFFFFFF, 0, 0, 0},
    {"jump-decided", jump, LOADED, 0, 0x10, 0, 0, 0},
    {"compare-jump-decided", compare_jump, LOADED, 0, 0x10, 0, 0, 0},
    {"add-jump-stopped", add_jump, LOADED, 0, 0x10, 0, 0, 0},
    {"sub-jump-stopped", sub_jump, LOADED, 0, 0x10, 0, 0, 0},
    {"signed-jump-low-undefined", signed_half_jump, LOADED, 0, 0x00FF, 0, 0, 0},
    {"signed-jump-sign-undefined", signed_half_jump, LOADED, 0, 0x8000, 0, 0, 0},
    {"output", output, GIVEN, 0, 0x10, 0, 0, 0},
    {"output-twice", output_twice, GIVEN, 0, 0x10, 0, 0, 0},
    {"unaddressable-load-byte", load_byte, LOADED, 0, 0, 0, 0, 1},
    {"unaddressable-load-signed-byte", load_signed_byte, LOADED, 0, 0, 7, 7, 1},
    {"unaddressable-load-half", load_half, LOADED, 0, 0, 0, 0, 2},
    {"unaddressable-load", load, LOADED, 0, 0, 0, 0, 4},
    {"unaddressable-load-jump", load_jump, LOADED, 0, 0, 0, 0, 4},
    {"partly-unaddressable-load", load, LOADED, 0, 0, 0, 2, 2},
    {"partly-unaddressable-unaligned", load, LOADED, 0, 0, 2, 4, 4},
    {"partly-unaddressable-half", load_half, LOADED, 0, 0, 0, 1, 1},
    {"partly-unaddressable-half-unaligned", load_half, LOADED, 0, 0, 3, 4, 1},
    {"signed-top-unaddressable", signed_from, LOADED, 0, 0x81, 0, 1, 1},
    {"signed-top-unaddressable-jump", signed_from_jump, LOADED, 0, 0x81, 0, 1, 1},
    {"signed-low-unaddressable", signed_up_to, LOADED, 0, 0x81, 1, 0, 1},
    {"unaddressable-store-byte", store_byte, STORED, 0, 0x01, 0, 0, 1},
    {"unaddressable-store-half", store_half, STORED, 0, 0x0F01, 0, 0, 2},
    {"unaddressable-store", store, STORED, 0, 0x00FF0F01, 0, 0, 4},
    {"reopened-load", reopen, LOADED, 0, 0, 0, 0, 0},
    {"partly-unaddressable-store", store, STORED, 0, 0x00FF0F01, 0, 2, 2},
    {"partly-unaddressable-store-half", store_half, STORED, 0, 0x0F01, 0, 1, 1},
};

/* Reports made while it happens. */
static unsigned errors_of(const struct Event *e, struct Scene *s) {
    unsigned before = VALGRIND_COUNT_ERRORS;
    e->happen(s);
    return VALGRIND_COUNT_ERRORS - before;
}

/* Prints one event's line: errors reported, V and data of the word looked at (V 0 for bytes that
 * were unaddressable, data 0 for a pointer), and what was given. */
static void run_event(const struct Event *e) {
    static const struct Scene start = {0, 0, 0x89ABCDEF, 0, {0x44332211, 0x88776655}};
    static struct Scene s;
    uint32_t pointer_v[2] = {e->pointer_v, 0}, v, *word = (uint32_t *)((char *)&s + e->look);
    char *memory = (char *)s.memory;
    s = start;
    s.pointer = (uintptr_t)(memory + e->offset);
    require(VALGRIND_SET_VBITS(&s.pointer, pointer_v, sizeof pointer_v), "VALGRIND_SET_VBITS");
    require(VALGRIND_SET_VBITS(&s.value, &e->value_v, sizeof e->value_v), "VALGRIND_SET_VBITS");
    (void)VALGRIND_MAKE_MEM_NOACCESS(memory + e->hole_at, e->hole);
    unsigned errors = errors_of(e, &s);
    (void)VALGRIND_MAKE_MEM_DEFINED(memory + e->hole_at, e->hole);
    require(VALGRIND_GET_VBITS(word, &v, sizeof v), "VALGRIND_GET_VBITS");
    (void)VALGRIND_MAKE_MEM_DEFINED(&s, sizeof s);
    printf("event %s errors %x v %x data %x", e->name, errors, v, e->look == KEPT ? 0 : *word);
    printf(" given value %x v %x memory %x %x offset %x v %x hole %x %x\n", start.value, e->value_v,
           start.memory[0], start.memory[1], e->offset, e->pointer_v, e->hole_at, e->hole);
}

void run_events(void) {
    for (size_t i = 0; i < LENGTH(events); i++)
        run_event(&events[i]);
}
