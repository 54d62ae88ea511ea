/*
 * A model of a board with a Cortex-M0+ that runs the programs of examples/board
 * and counts what they take: 256 KiB of flash, 64 KiB of RAM, semihosting, and
 * the clock by which a program measures itself (SysTick).
 *
 *     cortex_m0 [-i] PROGRAM.elf [WORD...]
 *
 * The clock counts cycles, or instructions with -i. Cycles are those of the
 * Cortex-M0+ for memory that never waits and a multiplier of one cycle. Not in
 * it: waits for flash, other masters on the bus, interrupts, sleep, and the
 * third stage that a Cortex-M0 has in its pipeline.
 *
 * What the processor does not do (an access off its boundary, a store to flash,
 * an address with nothing behind it, an instruction that armv6-m does not have)
 * is a fault, as on the board: the handler in the vector table runs.
 */
#include <elf.h>
#include <fcntl.h>
#include <setjmp.h>
#include <stdint.h>
#include <stdio.h>
#include <stdlib.h>
#include <string.h>
#include <unistd.h>

typedef uint32_t u32;
typedef uint64_t u64;

enum { FLASH_SIZE = 256 * 1024, RAM_SIZE = 64 * 1024, SP = 13, LR = 14, PC = 15, HARD_FAULT = 3 };
#define RAM_START 0x20000000u
#define CLOCK_CONTROL 0xe000e010u
#define CLOCK_RELOAD 0xe000e014u
#define CLOCK 0xe000e018u

static uint8_t flash[FLASH_SIZE], ram[RAM_SIZE];
static u32 r[16], negative, zero, carry, overflow;
static u64 instructions, cycles;
static int count_instructions, in_fault;
static jmp_buf faulted;

static void give_up(const char *text)
{
    fprintf(stderr, "cortex_m0: %s, at %08x\n", text, r[PC]);
    exit(3);
}

static _Noreturn void fault(void)
{
    if (in_fault++)
        give_up("a fault in the handler of faults");
    longjmp(faulted, 1);
}

/* ---- memory */
static uint8_t *bytes_at(u32 address, u32 size, int write)
{
    if (address % size != 0)
        fault();
    if (address >= RAM_START && address - RAM_START <= RAM_SIZE - size)
        return ram + (address - RAM_START);
    if (write || address > FLASH_SIZE - size)
        fault();
    return flash + address;
}

static u32 load(u32 address, u32 size)
{
    u32 value = 0;
    if (address == CLOCK && size == 4)
        return -(u32)(count_instructions ? instructions : cycles) & 0xffffff;
    memcpy(&value, bytes_at(address, size, 0), size);
    return value;
}

/* The clock always runs over its whole range, so that starting it changes nothing. */
static void store(u32 address, u32 size, u32 value)
{
    if (address != CLOCK && address != CLOCK_RELOAD && address != CLOCK_CONTROL)
        memcpy(bytes_at(address, size, 1), &value, size);
}

/* ---- semihosting: the operations that examples/board/semihosting.c asks for */
static char **words;

static u32 host_open(u32 path_at, u32 way)
{
    const char *path = (const char *)bytes_at(path_at, 1, 0);
    if (strcmp(path, ":tt") == 0)
        return way < 8 ? 1 : 2;
    return (u32)(way < 4 ? open(path, O_RDONLY) : open(path, O_WRONLY | O_CREAT | O_TRUNC, 0666));
}

/* The start of so many bytes that the host reads or writes. */
static uint8_t *range_at(u32 address, u32 count, int write)
{
    uint8_t *start = bytes_at(address, 1, write);
    if (bytes_at(address + count - 1, 1, write) != start + count - 1)
        fault();
    return start;
}

static u32 host_command_line(u32 to_at, u32 room)
{
    char *to = (char *)range_at(to_at, room, 1);
    size_t length = 0;
    for (char **word = words; *word != NULL; word++) {
        if (length + strlen(*word) + 2 > room)
            give_up("the command line is too long");
        length += (size_t)sprintf(to + length, "%s%s", word == words ? "" : " ", *word);
    }
    return 0;
}

static u32 host(u32 operation, u32 block)
{
    u32 first = load(block, 4), second = load(block + 4, 4), third = load(block + 8, 4);
    ssize_t done;
    switch (operation) {
    case 0x01:
        return host_open(first, second);
    case 0x02:
        return (u32)close((int)first);
    case 0x05:
        done = third > 0 ? write((int)first, range_at(second, third, 0), third) : 0;
        return third - (u32)(done > 0 ? done : 0);
    case 0x06:
        done = third > 0 ? read((int)first, range_at(second, third, 1), third) : 0;
        return third - (u32)(done > 0 ? done : 0);
    case 0x15:
        return host_command_line(first, second);
    case 0x20:
        exit((int)second);
    default:
        give_up("an operation of the host that is not known");
        return 0;
    }
}

/* ---- results and flags */
static u32 flagged(u32 value)
{
    negative = value >> 31;
    zero = value == 0;
    return value;
}

static u32 sum(u32 a, u32 b, u32 with)
{
    u64 whole = (u64)a + b + with;
    carry = (u32)(whole >> 32);
    overflow = (~(a ^ b) & (a ^ (u32)whole)) >> 31;
    return flagged((u32)whole);
}

static u32 difference(u32 a, u32 b)
{
    return sum(a, ~b, 1);
}

enum shift { LEFT, RIGHT, SIGNED_RIGHT, ROTATE };

/* A shift by 0 to 255. The last bit that falls out is the carry. */
static u32 shifted(enum shift shift, u32 a, u32 by)
{
    if (by == 0)
        return flagged(a);
    switch (shift) {
    case LEFT:
        carry = by <= 32 ? a >> (32 - by) & 1 : 0;
        return flagged(by < 32 ? a << by : 0);
    case RIGHT:
        carry = by <= 32 ? a >> (by - 1) & 1 : 0;
        return flagged(by < 32 ? a >> by : 0);
    case SIGNED_RIGHT:
        carry = (u32)((int32_t)a >> (by < 32 ? by - 1 : 31)) & 1;
        return flagged((u32)((int32_t)a >> (by < 32 ? by : 31)));
    default:
        a = by % 32 > 0 ? a >> by % 32 | a << (32 - by % 32) : a;
        carry = a >> 31;
        return flagged(a);
    }
}

static int holds(u32 condition)
{
    const u32 tests[] = {zero, carry, negative, overflow, carry && !zero, negative == overflow, !zero && negative == overflow};
    return tests[condition / 2] != (condition & 1);
}

/* ---- instructions: each takes a cycle and what is added where it is carried out */
static void go_to(u32 address)
{
    if (!(address & 1))
        fault();
    r[PC] = address & ~1u;
}

static void two_registers(u32 operation, u32 d, u32 m)
{
    u32 a = r[d], b = r[m];
    switch (operation) {
    case 0: r[d] = flagged(a & b); break;
    case 1: r[d] = flagged(a ^ b); break;
    case 2: r[d] = shifted(LEFT, a, b & 255); break;
    case 3: r[d] = shifted(RIGHT, a, b & 255); break;
    case 4: r[d] = shifted(SIGNED_RIGHT, a, b & 255); break;
    case 5: r[d] = sum(a, b, carry); break;
    case 6: r[d] = sum(a, ~b, carry); break;
    case 7: r[d] = shifted(ROTATE, a, b & 255); break;
    case 8: flagged(a & b); break;
    case 9: r[d] = difference(0, b); break;
    case 10: difference(a, b); break;
    case 11: sum(a, b, 0); break;
    case 12: r[d] = flagged(a | b); break;
    case 13: r[d] = flagged(a * b); break;
    case 14: r[d] = flagged(a & ~b); break;
    default: r[d] = flagged(~b);
    }
}

/* Sums, comparisons, moves and jumps on all sixteen registers. */
static void any_registers(u32 op, u32 at)
{
    u32 d = (op & 7) | (op >> 4 & 8), m = op >> 3 & 15, b = m == PC ? at + 4 : r[m];
    switch (op >> 8 & 3) {
    case 1:
        difference(r[d], b);
        return;
    case 3:
        if (op & 0x80)
            r[LR] = (at + 2) | 1;
        cycles++;
        go_to(b);
        return;
    case 0:
        b += d == PC ? at + 4 : r[d];
    }
    if (d == PC)
        cycles++, go_to(b | 1);
    else
        r[d] = b;
}

static void indexed(u32 op)
{
    u32 *d = &r[op & 7], address = r[op >> 3 & 7] + r[op >> 6 & 7];
    switch (op >> 9 & 7) {
    case 0: store(address, 4, *d); break;
    case 1: store(address, 2, *d); break;
    case 2: store(address, 1, *d); break;
    case 3: *d = (u32)(int8_t)load(address, 1); break;
    case 4: *d = load(address, 4); break;
    case 5: *d = load(address, 2); break;
    case 6: *d = load(address, 1); break;
    default: *d = (u32)(int16_t)load(address, 2);
    }
}

/* A word, byte or half word at an offset that the instruction has. */
static void at_offset(u32 op)
{
    u32 *d = &r[op & 7], base = r[op >> 3 & 7], offset = op >> 6 & 31, size = op >> 13 == 4 ? 2 : op >> 12 & 1 ? 1 : 4;
    if (op & 0x800)
        *d = load(base + size * offset, size);
    else
        store(base + size * offset, size, *d);
}

/* Loads or stores the registers of a list from an address on, and gives the address behind them. */
static u32 several(u32 list, u32 address, int loads)
{
    for (u32 i = 0; i < 8; i++)
        if (list >> i & 1) {
            if (loads)
                r[i] = load(address, 4);
            else
                store(address, 4, r[i]);
            address += 4;
            cycles++;
        }
    return address;
}

static void push(u32 op)
{
    u32 count = (u32)__builtin_popcount(op & 0x1ff), address = several(op & 255, r[SP] -= 4 * count, 0);
    if (op & 0x100)
        store(address, 4, r[LR]), cycles++;
}

static void pop(u32 op)
{
    u32 address = several(op & 255, r[SP], 1);
    r[SP] = address + (op & 0x100 ? 4 : 0);
    if (op & 0x100)
        cycles += 3, go_to(load(address, 4));
}

static u32 extended(u32 sort, u32 value)
{
    switch (sort) {
    case 0: return (u32)(int16_t)value;
    case 1: return (u32)(int8_t)value;
    case 2: return value & 0xffff;
    default: return value & 0xff;
    }
}

static void miscellaneous(u32 op)
{
    u32 *d = &r[op & 7], b = r[op >> 3 & 7];
    switch (op >> 8 & 15) {
    case 0: r[SP] += op & 0x80 ? -(op & 127) * 4 : (op & 127) * 4; return;
    case 2: *d = extended(op >> 6 & 3, b); return;
    case 4: case 5: push(op); return;
    case 12: case 13: pop(op); return;
    }
    if ((op & 0xffc0) == 0xba00)
        *d = __builtin_bswap32(b);
    else if (op == 0xbeab)
        r[0] = host(r[0], r[1]);
    else if (op != 0xbf00)
        fault();
}

static void call(u32 op, u32 at)
{
    u32 next = load(at + 2, 2), s = op >> 10 & 1, j1 = next >> 13 & 1, j2 = next >> 11 & 1;
    if ((next & 0xd000) != 0xd000)
        fault();
    u32 offset = s << 24 | !(j1 ^ s) << 23 | !(j2 ^ s) << 22 | (op & 0x3ff) << 12 | (next & 0x7ff) << 1;
    r[LR] = (at + 4) | 1;
    r[PC] = at + 4 + (u32)((int32_t)(offset << 7) >> 7);
    cycles += 2;
}

static void branch_if(u32 op, u32 at)
{
    if ((op >> 8 & 15) >= 14)
        fault();
    if (holds(op >> 8 & 15))
        cycles++, r[PC] = at + 4 + 2 * (u32)(int8_t)op;
}

static void multiple(u32 op)
{
    u32 base = op >> 8 & 7, behind = several(op & 255, r[base], op & 0x800);
    if (!(op & 0x800) || !(op >> base & 1))
        r[base] = behind;
}

static void step(void)
{
    u32 at = r[PC], op = load(at, 2), d = op & 7, m = op >> 3 & 7, by = op >> 6 & 31, e = op >> 8 & 7, value = op & 255;
    u32 third = op & 0x400 ? op >> 6 & 7 : r[op >> 6 & 7];
    instructions++;
    cycles++;
    r[PC] = at + 2;
    switch (op >> 11) {
    case 0: r[d] = shifted(LEFT, r[m], by); break;
    case 1: r[d] = shifted(RIGHT, r[m], by ? by : 32); break;
    case 2: r[d] = shifted(SIGNED_RIGHT, r[m], by ? by : 32); break;
    case 3: r[d] = op & 0x200 ? difference(r[m], third) : sum(r[m], third, 0); break;
    case 4: r[e] = flagged(value); break;
    case 5: difference(r[e], value); break;
    case 6: r[e] = sum(r[e], value, 0); break;
    case 7: r[e] = difference(r[e], value); break;
    case 8: op & 0x400 ? any_registers(op, at) : two_registers(op >> 6 & 15, d, m); break;
    case 9: cycles++, r[e] = load(((at + 4) & ~3u) + 4 * value, 4); break;
    case 10: case 11: cycles++, indexed(op); break;
    case 12: case 13: case 14: case 15: case 16: case 17: cycles++, at_offset(op); break;
    case 18: cycles++, store(r[SP] + 4 * value, 4, r[e]); break;
    case 19: cycles++, r[e] = load(r[SP] + 4 * value, 4); break;
    case 20: r[e] = ((at + 4) & ~3u) + 4 * value; break;
    case 21: r[e] = r[SP] + 4 * value; break;
    case 22: case 23: miscellaneous(op); break;
    case 24: case 25: multiple(op); break;
    case 26: case 27: branch_if(op, at); break;
    case 28: cycles++, r[PC] = at + 4 + (u32)((int32_t)(op << 21) >> 20); break;
    case 30: call(op, at); break;
    default: fault();
    }
}

/* Puts the parts of the program where they are kept while the board is off. */
static void flash_program(const char *path)
{
    static uint8_t file[1 << 20];
    FILE *from = fopen(path, "rb");
    size_t size = from != NULL ? fread(file, 1, sizeof file, from) : 0;
    const Elf32_Ehdr *head = (const Elf32_Ehdr *)file;
    if (size < sizeof *head || memcmp(head->e_ident, ELFMAG, SELFMAG) != 0 || head->e_machine != EM_ARM) {
        fprintf(stderr, "cortex_m0: %s is no program for the board\n", path);
        exit(2);
    }
    const Elf32_Phdr *part = (const Elf32_Phdr *)(file + head->e_phoff);
    for (int i = 0; i < head->e_phnum; i++) {
        if (part[i].p_type != PT_LOAD || part[i].p_filesz == 0)
            continue;
        if (part[i].p_offset + part[i].p_filesz > size || part[i].p_paddr + part[i].p_filesz > FLASH_SIZE)
            give_up("the program does not fit the flash");
        memcpy(flash + part[i].p_paddr, file + part[i].p_offset, part[i].p_filesz);
    }
}

int main(int argc, char **argv)
{
    int first = argc > 1 && strcmp(argv[1], "-i") == 0 ? 2 : 1;
    count_instructions = first == 2;
    if (argc <= first) {
        fprintf(stderr, "usage: cortex_m0 [-i] PROGRAM.elf [WORD...]\n");
        return 2;
    }
    words = argv + first;
    flash_program(argv[first]);
    r[SP] = load(0, 4);
    go_to(load(4 * (setjmp(faulted) ? HARD_FAULT : 1), 4));
    for (;;)
        step();
}
