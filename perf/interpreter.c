/* A plain interpreter of AM code in C, to measure the proved machine against: the same loops, the same fault checks. */
#include <inttypes.h>
#include <stdint.h>
#include <stdio.h>
#include <stdlib.h>
#include <time.h>

enum { LIT, READ, WRITE, LOAD, STORE, JMP, JMC, ADD, SUB, MUL, DIV, MOD, LT, EQ, NE, GT, LE, GE };
enum { RUNNING, ENDED, FAULTED, AT_LID };

struct instruction {
    uint16_t operation;
    uint16_t operand;
    int32_t number;
};

struct machine {
    const struct instruction *code;
    size_t length;
    size_t counter;
    size_t depth;
    uint64_t steps;
    uint64_t lid;
    int cause;
    int32_t stack[68];
    struct { int set; int32_t value; } cells[64];
};

static struct instruction decode(uint32_t word)
{
    struct instruction i = { LIT, 0, 0 };
    if (word >> 31) {
        i.number = (int32_t)(word << 1) >> 1;
    } else if (word >> 30) {
        i.operation = (uint16_t)(READ + ((word >> 27) & 7));
        i.operand = (uint16_t)word;
    } else {
        i.operation = (uint16_t)(ADD + word - 1);
    }
    return i;
}

/* The strict unit: 32 bits, and nothing outside them. */
static int narrow(int64_t exact, int32_t *value)
{
    if (exact < INT32_MIN || exact > INT32_MAX)
        return 0;
    *value = (int32_t)exact;
    return 1;
}

static int64_t floor_quotient(int64_t x, int64_t y)
{
    int64_t q = x / y;
    return x % y != 0 && (x < 0) != (y < 0) ? q - 1 : q;
}

static int status(const struct machine *m)
{
    if (m->cause != 0)
        return FAULTED;
    if (m->counter > m->length)
        return ENDED;
    return m->steps == m->lid ? AT_LID : RUNNING;
}


#define FAULT(number) do { m->cause = (number); return 0; } while (0)
#define OPERANDS() do { if (m->depth < 2) FAULT(25); x = m->stack[m->depth - 2]; y = m->stack[m->depth - 1]; } while (0)
#define NARROWED(exact) do { if (!narrow((exact), &v)) FAULT(23); m->stack[--m->depth - 1] = v; m->counter++; } while (0)
#define ANSWER(test) do { OPERANDS(); m->stack[--m->depth - 1] = (test); m->counter++; } while (0)

static int step(struct machine *m)
{
    int32_t v;
    int64_t x, y;
    struct instruction i = m->code[m->counter - 1];
    switch (i.operation) {
    case LIT:
        if (m->depth >= 68) FAULT(26);
        if (!narrow(i.number, &v)) FAULT(23);
        m->stack[m->depth++] = v; m->counter++; break;
    case READ: FAULT(20);
    case WRITE: if (!m->cells[i.operand - 1].set) FAULT(22); FAULT(21);
    case LOAD:
        if (m->depth >= 68) FAULT(26);
        if (!m->cells[i.operand - 1].set) FAULT(22);
        m->stack[m->depth++] = m->cells[i.operand - 1].value; m->counter++; break;
    case STORE:
        if (m->depth == 0) FAULT(25);
        m->cells[i.operand - 1].set = 1;
        m->cells[i.operand - 1].value = m->stack[--m->depth]; m->counter++; break;
    case JMP: m->counter = i.operand; break;
    case JMC:
        if (m->depth == 0) FAULT(25);
        m->counter = m->stack[--m->depth] == 0 ? i.operand : m->counter + 1; break;
    case ADD: OPERANDS(); NARROWED(x + y); break;
    case SUB: OPERANDS(); NARROWED(x - y); break;
    case MUL: OPERANDS(); NARROWED(x * y); break;
    case DIV: OPERANDS(); if (y == 0) FAULT(24); NARROWED(floor_quotient(x, y)); break;
    case MOD: OPERANDS(); if (y == 0) FAULT(24); NARROWED(x - y * floor_quotient(x, y)); break;
    case LT: ANSWER(x < y); break;
    case EQ: ANSWER(x == y); break;
    case NE: ANSWER(x != y); break;
    case GT: ANSWER(x > y); break;
    case LE: ANSWER(x <= y); break;
    case GE: ANSWER(x >= y); break;
    }
    m->steps++;
    return 1;
}

static uint32_t advance(struct machine *m, uint32_t allowance)
{
    uint64_t before = m->steps;
    while (status(m) == RUNNING && m->steps - before < allowance && step(m))
        ;
    return (uint32_t)(m->steps - before);
}

static const uint32_t count[] = {
    0x80000000, 0x58000001, 0x50000001, 0x80000001, 1, 0x58000001, 0x80000000, 0x68000003,
};

static const uint32_t nested[] = {
    0x80000000, 0x58000001, 0x80000000, 0x58000003, 0x80000000, 0x58000002, 0x50000002, 0x800003E8,
    6, 0x68000014, 0x50000001, 0x50000003, 2, 0x58000003, 0x50000002, 0x80000001,
    1, 0x58000002, 0x60000007, 0x50000001, 0x80000001, 1, 0x58000001, 0x60000005,
};

static const uint32_t branches[] = {
    0x80000000, 0x58000001, 0x80000000, 0x58000002, 0x50000001, 0x80000003, 5, 0x80000000, 7, 0x68000010,
    0x50000001, 0x80000007, 4, 0x58000002, 0x60000016, 0x50000002, 0x80000005, 5, 0x80000001, 2,
    0x58000002, 0x50000001, 0x80000001, 1, 0x58000001, 0x60000005,
};

static void measure(const char *name, const uint32_t *words, size_t length, uint32_t steps)
{
    static struct instruction code[64];
    static struct machine m;
    struct timespec start, end;
    for (size_t k = 0; k < length; k++)
        code[k] = decode(words[k]);
    m = (struct machine){ .code = code, .length = length, .counter = 1, .lid = steps };
    clock_gettime(CLOCK_MONOTONIC, &start);
    uint32_t made = advance(&m, steps);
    clock_gettime(CLOCK_MONOTONIC, &end);
    int64_t nanos = (end.tv_sec - start.tv_sec) * 1000000000LL + (end.tv_nsec - start.tv_nsec);
    printf("%s %" PRIu32 " %d\n", name, made, status(&m));
    fprintf(stderr, "%s %" PRIu32 " %" PRId64 "\n", name, made, nanos);
}

int main(int argc, char **argv)
{
    uint32_t steps = argc > 1 ? (uint32_t)strtoul(argv[1], NULL, 10) : 1000;
    measure("count", count, sizeof count / sizeof *count, steps);
    measure("nested", nested, sizeof nested / sizeof *nested, steps);
    measure("branches", branches, sizeof branches / sizeof *branches, steps);
    return 0;
}
