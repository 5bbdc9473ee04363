/* The design of the hart of orc, in C, to compare its speed with: instructions are decoded once, into places by their
   address, and done by one switch. A program's words are at 0x10000000, with data behind them, and its stack is where
   orc has it. For measurements alone: it knows the instructions that compiled loops have, and stops at any other.

       hart WORDS ARGUMENT FUEL        prints a0, and the nanoseconds that the run took */
#include <stdint.h>
#include <stdio.h>
#include <stdlib.h>
#include <string.h>
#include <time.h>

#define HOME 0xFFFFFFFFFFFFFFF0u
#define STACK_START 0x7FEF0000u
#define STACK_END 0x7FFF0000u
#define BASE 0x10000000u
#define PLACES 4096

enum kind {
    ADD, SUB, SLL, SLT, SLTU, XOR, SRL, SRA, OR, AND, MUL, DIVU, REMU, ADDW, SUBW, MULW, ADDI, SLTI, SLTIU, XORI, ORI,
    ANDI, SLLI, SRLI, SRAI, ADDIW, SLLIW, SRLIW, SRAIW, BEQ, BNE, BLT, BGE, BLTU, BGEU, LB, LH, LW, LD, LBU, LHU, LWU,
    SB, SH, SW, SD, LUI, AUIPC, JAL, JALR, BAD
};
struct insn { uint64_t at; int64_t imm; uint8_t kind, rd, rs1, rs2; };

static struct insn places[PLACES];
static uint8_t *range, *stack;
static uint64_t size;

static uint8_t *find(uint64_t at, uint64_t width) {
    if (at - STACK_START < STACK_END - STACK_START)
        return STACK_END - at >= width ? stack + (at - STACK_START) : NULL;
    return at - BASE < size && size - (at - BASE) >= width ? range + (at - BASE) : NULL;
}

static void forget(uint64_t word) {
    struct insn *place = &places[word / 4 % PLACES];
    if (place->at == word) place->at = 1;
}

static int store(uint64_t at, uint64_t width, uint64_t value) {
    uint8_t *to = find(at, width);
    if (!to) return 0;
    memcpy(to, &value, width);
    if (at - STACK_START >= STACK_END - STACK_START) {
        forget(at & ~3ul);
        if (width == 8) forget((at & ~3ul) + 4);
        if (at & 3) forget((at + width - 1) & ~3ul);
    }
    return 1;
}

static int64_t high(uint32_t word, int count) { return (int64_t)(int32_t)word >> (32 - count); }

static struct insn decoded(uint64_t at, uint32_t w) {
    static const uint8_t op[8] = {ADD, SLL, SLT, SLTU, XOR, SRL, OR, AND}, mul[8] = {MUL, BAD, BAD, BAD, BAD, DIVU, BAD, REMU};
    static const uint8_t imm[8] = {ADDI, SLLI, SLTI, SLTIU, XORI, SRLI, ORI, ANDI};
    static const uint8_t load[8] = {LB, LH, LW, LD, LBU, LHU, LWU, BAD}, save[8] = {SB, SH, SW, SD, BAD, BAD, BAD, BAD};
    static const uint8_t branch[8] = {BEQ, BNE, BAD, BAD, BLT, BGE, BLTU, BGEU};
    uint32_t f3 = w >> 12 & 7, f7 = w >> 25;
    struct insn i = {at, high(w, 12), BAD, w >> 7 & 31, w >> 15 & 31, w >> 20 & 31};
    switch (w & 127) {
    case 0x33:
        i.kind = f7 == 0 ? op[f3] : f7 == 1 ? mul[f3] : f7 == 32 && f3 == 0 ? SUB : f7 == 32 && f3 == 5 ? SRA : BAD;
        break;
    case 0x3B:
        i.kind = f3 ? BAD : f7 == 0 ? ADDW : f7 == 32 ? SUBW : f7 == 1 ? MULW : BAD;
        break;
    case 0x13:
        i.kind = f3 == 5 && f7 >> 1 == 16 ? SRAI : imm[f3];
        if (f3 == 1 || f3 == 5) i.imm = w >> 20 & 63;
        break;
    case 0x1B:
        i.kind = f3 == 0 ? ADDIW : f3 == 1 ? SLLIW : f3 == 5 ? (f7 ? SRAIW : SRLIW) : BAD;
        if (f3) i.imm = w >> 20 & 31;
        break;
    case 0x03: i.kind = load[f3]; break;
    case 0x23: i.kind = save[f3], i.imm = high(w, 7) << 5 | (w >> 7 & 31); break;
    case 0x63:
        i.kind = branch[f3];
        i.imm = (high(w, 1) << 12) | (w >> 7 & 1) << 11 | (w >> 25 & 63) << 5 | (w >> 8 & 15) << 1;
        break;
    case 0x37: i.kind = LUI, i.imm = (int32_t)(w & 0xFFFFF000); break;
    case 0x17: i.kind = AUIPC, i.imm = (int32_t)(w & 0xFFFFF000); break;
    case 0x6F:
        i.kind = JAL;
        i.imm = (high(w, 1) << 20) | (w >> 12 & 255) << 12 | (w >> 20 & 1) << 11 | (w >> 21 & 1023) << 1;
        break;
    case 0x67: i.kind = JALR; break;
    }
    return i;
}

static void stop(const char *why, uint64_t pc) {
    printf("%s at %llx\n", why, (unsigned long long)pc);
    exit(1);
}

#define SET(value) { uint64_t v = (value); if (rd) x[rd] = v; pc += 4; break; }
#define GO(taken) { if (taken) { pc += imm; if (pc & 3) stop("misaligned", pc); } else pc += 4; break; }
#define LOAD(type) { uint8_t *from = find(a + imm, sizeof(type)); if (!from) stop("load", pc); \
    type loaded; memcpy(&loaded, from, sizeof loaded); SET((uint64_t)(int64_t)loaded) }
#define STORE(width) { if (!store(a + imm, width, b)) stop("store", pc); pc += 4; break; }

__attribute__((noinline)) static uint64_t run(uint64_t argument, uint64_t fuel) {
    uint64_t x[32] = {0}, pc = BASE;
    x[1] = HOME, x[2] = STACK_END, x[10] = argument;
    for (; fuel; fuel--) {
        if (pc == HOME) return x[10];
        if (pc & 3) stop("misaligned", pc);
        struct insn *place = &places[pc / 4 % PLACES];
        if (place->at != pc) {
            uint8_t *from = find(pc, 4);
            uint32_t word;
            if (!from) stop("fetch", pc);
            memcpy(&word, from, 4);
            *place = decoded(pc, word);
        }
        uint64_t a = x[place->rs1], b = x[place->rs2], imm = place->imm;
        uint8_t rd = place->rd;
        switch ((enum kind)place->kind) {
        case ADD: SET(a + b)
        case SUB: SET(a - b)
        case SLL: SET(a << (b & 63))
        case SLT: SET((int64_t)a < (int64_t)b)
        case SLTU: SET(a < b)
        case XOR: SET(a ^ b)
        case SRL: SET(a >> (b & 63))
        case SRA: SET((int64_t)a >> (b & 63))
        case OR: SET(a | b)
        case AND: SET(a & b)
        case MUL: SET(a * b)
        case DIVU: SET(b ? a / b : -1ul)
        case REMU: SET(b ? a % b : a)
        case ADDW: SET((int32_t)(a + b))
        case SUBW: SET((int32_t)(a - b))
        case MULW: SET((int32_t)(a * b))
        case ADDI: SET(a + imm)
        case SLTI: SET((int64_t)a < (int64_t)imm)
        case SLTIU: SET(a < imm)
        case XORI: SET(a ^ imm)
        case ORI: SET(a | imm)
        case ANDI: SET(a & imm)
        case SLLI: SET(a << imm)
        case SRLI: SET(a >> imm)
        case SRAI: SET((int64_t)a >> imm)
        case ADDIW: SET((int32_t)(a + imm))
        case SLLIW: SET((int32_t)((uint32_t)a << imm))
        case SRLIW: SET((int32_t)((uint32_t)a >> imm))
        case SRAIW: SET((int32_t)a >> imm)
        case BEQ: GO(a == b)
        case BNE: GO(a != b)
        case BLT: GO((int64_t)a < (int64_t)b)
        case BGE: GO((int64_t)a >= (int64_t)b)
        case BLTU: GO(a < b)
        case BGEU: GO(a >= b)
        case LB: LOAD(int8_t)
        case LH: LOAD(int16_t)
        case LW: LOAD(int32_t)
        case LD: LOAD(int64_t)
        case LBU: LOAD(uint8_t)
        case LHU: LOAD(uint16_t)
        case LWU: LOAD(uint32_t)
        case SB: STORE(1)
        case SH: STORE(2)
        case SW: STORE(4)
        case SD: STORE(8)
        case LUI: SET(imm)
        case AUIPC: SET(pc + imm)
        case JAL: { uint64_t to = pc + imm; if (to & 3) stop("misaligned", pc); if (rd) x[rd] = pc + 4; pc = to; break; }
        case JALR: { uint64_t to = (a + imm) & ~1ul; if (to & 3) stop("misaligned", pc); if (rd) x[rd] = pc + 4; pc = to; break; }
        case BAD: stop("unknown instruction", pc);
        }
    }
    return x[10];
}

int main(int count, char **words) {
    if (count != 4) return 2;
    FILE *file = fopen(words[1], "rb");
    if (!file) return 2;
    range = calloc(1, 1 << 26), stack = calloc(1, STACK_END - STACK_START);
    size = fread(range, 1, 1 << 26, file);
    for (int k = 0; k < PLACES; k++) places[k].at = 1;
    struct timespec from, to;
    clock_gettime(CLOCK_MONOTONIC, &from);
    uint64_t a0 = run(strtoull(words[2], NULL, 0), strtoull(words[3], NULL, 0));
    clock_gettime(CLOCK_MONOTONIC, &to);
    printf("%llu %lld\n", (unsigned long long)a0, (to.tv_sec - from.tv_sec) * 1000000000ll + to.tv_nsec - from.tv_nsec);
}
