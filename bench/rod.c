/* A measuring rod: what a plain interpreter of RV32IM, with decoded cells and computed goto, reaches on this machine. It
   has one processor, 16 MiB of memory and the window of processor 0, no model, and no account of what it does.

       cc -O2 -o rod rod.c
       ./rod FILE [STEPS]

   FILE is a static executable; it is executed to its end, or for so many steps. What it writes goes to the output; the
   last line says how many instructions were executed, and how many million a second of processor time. */
#include <stdint.h>
#include <stdio.h>
#include <stdlib.h>
#include <string.h>
#include <time.h>

enum { MEMORY = 0x1000000, WINDOW = 0x10000, FILE_LIMIT = 1 << 22 };
static const uint32_t WINDOW_BASE = 0x7fff0000u;

typedef struct {
    const void *op;
    uint8_t rd, a, b;
    int32_t imm;
} Cell;

typedef struct {
    uint32_t kind, offset, address, physical, in_file, in_memory, flags, align;
} Segment;

static uint8_t memory[MEMORY], window[WINDOW], file[FILE_LIMIT];

static inline uint8_t *at(uint32_t address)
{
    if (address < MEMORY)
        return memory + address;
    return address - WINDOW_BASE < WINDOW ? window + (address - WINDOW_BASE) : NULL;
}

enum { BAD, LUI, JAL, JALR, BEQ, BNE, BLT, BGE, BLTU, BGEU, LB, LH, LW, LBU, LHU, SB, SH, SW, ADDI, SLLI, SLTI, SLTIU,
       XORI, SRLI, ORI, ANDI, SRAI, ADD, SLL, SLT, SLTU, XOR, SRL, OR, AND, SUB, SRA, MUL, MULH, MULHSU, MULHU, DIV, DIVU,
       REM, REMU, ECALL, FENCE };

/* Which operation a word is; its place is for AUIPC, which is a LUI of a known value. */
static int decode(uint32_t word, uint32_t place, Cell *cell)
{
    static const int branches[] = {BEQ, BNE, BAD, BAD, BLT, BGE, BLTU, BGEU}, loads[] = {LB, LH, LW, BAD, LBU, LHU, BAD, BAD};
    uint32_t f3 = word >> 12 & 7, f7 = word >> 25;
    cell->rd = word >> 7 & 31;
    cell->a = word >> 15 & 31;
    cell->b = word >> 20 & 31;
    cell->imm = (int32_t)word >> 20;
    switch (word & 127) {
    case 0x37: cell->imm = (int32_t)(word & 0xfffff000u); return LUI;
    case 0x17: cell->imm = (int32_t)((word & 0xfffff000u) + place); return LUI;
    case 0x6f: cell->imm = ((int32_t)word >> 31) * (1 << 20) + (int32_t)((word >> 12 & 255) * 4096 + (word >> 20 & 1) * 2048
                   + (word >> 21 & 1023) * 2); return JAL;
    case 0x67: return JALR;
    case 0x63: cell->imm = ((int32_t)word >> 31) * 4096 + (int32_t)((word >> 7 & 1) * 2048 + (word >> 25 & 63) * 32
                   + (word >> 8 & 15) * 2); return branches[f3];
    case 0x03: return loads[f3];
    case 0x23: cell->imm = ((int32_t)word >> 25) * 32 + (int32_t)(word >> 7 & 31); return f3 < 3 ? SB + (int)f3 : BAD;
    case 0x13: if (f3 == 1 || f3 == 5) cell->imm &= 31; return f3 == 5 && f7 == 32 ? SRAI : ADDI + (int)f3;
    case 0x33: return f7 == 1 ? MUL + (int)f3 : f7 == 0 ? ADD + (int)f3 : f3 == 0 ? SUB : SRA;
    case 0x73: return ECALL;
    case 0x0f: return FENCE;
    default: return BAD;
    }
}

static int64_t signed_of(uint32_t x) { return (int32_t)x; }
static uint32_t quotient(uint32_t x, uint32_t y) { return y == 0 ? ~0u : (uint32_t)(signed_of(x) / signed_of(y)); }
static uint32_t rest(uint32_t x, uint32_t y) { return y == 0 ? x : (uint32_t)(signed_of(x) % signed_of(y)); }

int main(int count, char **words)
{
    FILE *from = count > 1 ? fopen(words[1], "rb") : NULL;
    if (from == NULL || fread(file, 1, sizeof file, from) < 52)
        return fprintf(stderr, "usage: rod FILE [STEPS]\n"), 2;
    uint64_t most = count > 2 ? strtoull(words[2], NULL, 10) : ~0ull, left = most;
    uint32_t entry = *(uint32_t *)(file + 24), low = ~0u, high = 0;
    Segment *segment = (Segment *)(file + *(uint32_t *)(file + 28));
    for (int n = *(uint16_t *)(file + 44); n > 0; n -= 1, segment += 1) {
        if (segment->kind != 1)
            continue;
        memcpy(memory + segment->address, file + segment->offset, segment->in_file);
        if (segment->flags & 1) {
            low = segment->address < low ? segment->address & ~3u : low;
            high = segment->address + segment->in_memory > high ? segment->address + segment->in_memory : high;
        }
    }
    static const void *const ops[] = {&&bad, &&lui, &&jal, &&jalr, &&beq, &&bne, &&blt, &&bge, &&bltu, &&bgeu, &&lb, &&lh,
        &&lw, &&lbu, &&lhu, &&sb, &&sh, &&sw, &&addi, &&slli, &&slti, &&sltiu, &&xori, &&srli, &&ori, &&andi, &&srai, &&add,
        &&sll, &&slt, &&sltu, &&xor, &&srl, &&or, &&and, &&sub, &&sra, &&mul, &&mulh, &&mulhsu, &&mulhu, &&div, &&divu,
        &&rem, &&remu, &&ecall, &&fence};
    uint32_t length = (high - low + 3) / 4, r[33] = {0};
    Cell *code = calloc(length + 1, sizeof *code);
    code[length].op = &&bad;
    for (uint32_t k = 0; k < length; k += 1) {
        code[k].op = ops[decode(*(uint32_t *)(memory + low + 4 * k), low + 4 * k, code + k)];
        if (code[k].rd == 0)
            code[k].rd = 32; /* what x0 is given goes nowhere */
    }
    r[2] = 0x7ffffff0u;
    r[11] = 1;
    clock_t start = clock();
    Cell *p = code + (entry - low) / 4;
#define NEXT do { if (--left == 0) goto done; goto *p->op; } while (0)
#define ADDRESS (r[p->a] + (uint32_t)p->imm)
#define SET(value) { r[p->rd] = (uint32_t)(value); p += 1; NEXT; }
#define LOAD(type) { uint32_t x = ADDRESS; uint8_t *m = at(x); if (m == NULL || x % sizeof(type)) goto bad; SET(*(type *)m) }
#define STORE(type) { uint32_t x = ADDRESS; uint8_t *m = at(x); if (m == NULL || x % sizeof(type)) goto bad; \
        *(type *)m = (type)r[p->b]; p += 1; NEXT; }
#define BRANCH(test) { p += (test) ? p->imm / 4 : 1; NEXT; }
#define A r[p->a]
#define B r[p->b]
#define SA (int32_t)r[p->a]
#define SB_ (int32_t)r[p->b]
    goto *p->op;
lui: SET(p->imm)
jal: { r[p->rd] = low + 4 * (uint32_t)(p - code) + 4; p += p->imm / 4; NEXT; }
jalr: { uint32_t x = ADDRESS & ~1u; r[p->rd] = low + 4 * (uint32_t)(p - code) + 4;
        if ((x - low) / 4 >= length)
            goto bad;
        p = code + (x - low) / 4;
        NEXT;
    }
beq: BRANCH(A == B)
bne: BRANCH(A != B)
blt: BRANCH(SA < SB_)
bge: BRANCH(SA >= SB_)
bltu: BRANCH(A < B)
bgeu: BRANCH(A >= B)
lb: LOAD(int8_t)
lh: LOAD(int16_t)
lw: LOAD(uint32_t)
lbu: LOAD(uint8_t)
lhu: LOAD(uint16_t)
sb: STORE(uint8_t)
sh: STORE(uint16_t)
sw: STORE(uint32_t)
addi: SET(A + (uint32_t)p->imm)
slli: SET(A << p->imm)
slti: SET(SA < p->imm)
sltiu: SET(A < (uint32_t)p->imm)
xori: SET(A ^ (uint32_t)p->imm)
srli: SET(A >> p->imm)
ori: SET(A | (uint32_t)p->imm)
andi: SET(A & (uint32_t)p->imm)
srai: SET(SA >> p->imm)
add: SET(A + B)
sll: SET(A << (B & 31))
slt: SET(SA < SB_)
sltu: SET(A < B)
xor: SET(A ^ B)
srl: SET(A >> (B & 31))
or: SET(A | B)
and: SET(A & B)
sub: SET(A - B)
sra: SET(SA >> (B & 31))
mul: SET(A * B)
mulh: SET((uint64_t)(signed_of(A) * signed_of(B)) >> 32)
mulhsu: SET((uint64_t)(signed_of(A) * (int64_t)(uint64_t)B) >> 32)
mulhu: SET((uint64_t)A * B >> 32)
div: SET(quotient(A, B))
divu: SET(B == 0 ? ~0u : A / B)
rem: SET(rest(A, B))
remu: SET(B == 0 ? A : A % B)
fence: { p += 1; NEXT; }
ecall: {
        if (r[17] != 64) goto done;
        for (uint32_t k = 0; k < r[12]; k += 1) putchar(*at(r[11] + k));
        r[10] = r[12]; p += 1; NEXT;
    }
bad: fprintf(stderr, "rod: trap at %08x\n", low + 4 * (uint32_t)(p - code));
done: ;
    double seconds = (double)(clock() - start) / CLOCKS_PER_SEC;
    printf("%llu instructions, %.3f s, %.0f million a second\n", (unsigned long long)(most - left), seconds,
        (double)(most - left) / seconds / 1e6);
    return 0;
}
