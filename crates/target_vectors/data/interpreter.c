/* A plain interpreter in C to measure against: Armv6-M instructions by nested switches, an end for each step, and a tick of the same flash
 * controller after each. gcc -O2 -o interpreter interpreter.c; then interpreter ROUNDS FILE.. as target_vectors measure. */
#include <stdint.h>
#include <stdio.h>
#include <stdlib.h>
#include <string.h>

typedef uint32_t u32;
enum end { WENT, BREAK, UNDEFINED, BUS_FAULT, UNALIGNED, BAD_STATE };

#define RAM_BASE 0x20000000u
#define RAM_SIZE 4096u
#define FLASH_BASE 0x08000000u
#define FLASH_SIZE 1024u
#define SECTOR 256u
#define BLOCK 0x40022000u

struct target {
    u32 r[16];
    int n, z, c, v, primask;
    u32 fault_at;
    unsigned char ram[RAM_SIZE], cells[FLASH_SIZE];
    int lock, done, sequence, range, not_empty, running;
    u32 command, address, ticks, op_at, op_len, op_value;
    int op_fill;
};

static u32 get(const unsigned char *p, u32 width)
{
    switch (width) {
    case 1: return p[0];
    case 2: return p[0] | p[1] << 8;
    default: return p[0] | p[1] << 8 | p[2] << 16 | (u32)p[3] << 24;
    }
}

static void put(unsigned char *p, u32 width, u32 v)
{
    p[0] = v;
    if (width > 1) p[1] = v >> 8;
    if (width > 2) { p[2] = v >> 16; p[3] = v >> 24; }
}

static enum end flash_load(struct target *t, u32 at, u32 width, u32 *v)
{
    if (at - BLOCK < 32) {
        if (width != 4) return BUS_FAULT;
        switch (at - BLOCK) {
        case 0: case 16: *v = 0; return WENT;
        case 4: *v = t->running | t->done << 1 | t->sequence << 2 | t->range << 3 | t->not_empty << 4 | (t->lock != 2) << 5; return WENT;
        case 8: *v = t->command; return WENT;
        case 12: *v = t->address; return WENT;
        default: return BUS_FAULT;
        }
    }
    if (at - FLASH_BASE >= FLASH_SIZE || t->running) return BUS_FAULT;
    *v = get(t->cells + (at - FLASH_BASE), width);
    return WENT;
}

static void begin(struct target *t, u32 at, u32 len, int fill, u32 value, u32 ticks)
{
    t->running = 1; t->op_at = at; t->op_len = len; t->op_fill = fill; t->op_value = value; t->ticks = ticks;
}

static enum end flash_store(struct target *t, u32 at, u32 width, u32 v)
{
    int ready = t->lock == 2 && !t->running;
    u32 i;
    if (at - BLOCK < 32) {
        if (width != 4) return BUS_FAULT;
        switch (at - BLOCK) {
        case 0: t->lock = t->lock == 0 && v == 0x45670123 ? 1 : t->lock == 1 && v == 0xCDEF89AB ? 2 : 3; return WENT;
        case 4: t->done &= !(v & 2); t->sequence &= !(v & 4); t->range &= !(v & 8); t->not_empty &= !(v & 16); return WENT;
        case 8: if (ready && v <= 3) t->command = v; else t->sequence = 1; return WENT;
        case 12: if (ready) t->address = v; else t->sequence = 1; return WENT;
        case 16:
            if (ready && v == 1 && t->command == 2) {
                if (t->address - FLASH_BASE < FLASH_SIZE) begin(t, (t->address - FLASH_BASE) / SECTOR * SECTOR, SECTOR, 1, 0xFF, 400);
                else t->range = 1;
            } else if (ready && v == 1 && t->command == 3) begin(t, 0, FLASH_SIZE, 1, 0xFF, 2000);
            else t->sequence = 1;
            return WENT;
        default: return BUS_FAULT;
        }
    }
    if (at - FLASH_BASE >= FLASH_SIZE || t->running) return BUS_FAULT;
    if (t->lock != 2 || t->command != 1 || width != 2) { t->sequence = 1; return WENT; }
    for (i = 0; i < width; i++) if (t->cells[at - FLASH_BASE + i] != 0xFF) { t->not_empty = 1; return WENT; }
    begin(t, at - FLASH_BASE, width, 0, v, 16);
    return WENT;
}

static void tick(struct target *t)
{
    if (!t->running) return;
    if (--t->ticks) return;
    if (t->op_fill) memset(t->cells + t->op_at, t->op_value, t->op_len);
    else put(t->cells + t->op_at, t->op_len, t->op_value);
    t->running = 0;
    t->done = 1;
}

static enum end load(struct target *t, u32 at, u32 width, u32 *v)
{
    enum end e;
    if (at % width) { t->fault_at = at; return UNALIGNED; }
    if (at - RAM_BASE <= RAM_SIZE - width) { *v = get(t->ram + (at - RAM_BASE), width); return WENT; }
    e = flash_load(t, at, width, v);
    if (e) t->fault_at = at;
    return e;
}

static enum end store(struct target *t, u32 at, u32 width, u32 v)
{
    enum end e;
    if (at % width) { t->fault_at = at; return UNALIGNED; }
    if (at - RAM_BASE <= RAM_SIZE - width) { put(t->ram + (at - RAM_BASE), width, v); return WENT; }
    e = flash_store(t, at, width, v);
    if (e) t->fault_at = at;
    return e;
}

static u32 reg(const struct target *t, u32 n) { return n == 15 ? t->r[15] + 4 : t->r[n]; }
static void set(struct target *t, u32 n, u32 v) { t->r[n] = n == 13 ? v & ~3u : v; }
static void nz(struct target *t, u32 v) { t->n = v >> 31; t->z = v == 0; }

static u32 sum(struct target *t, u32 a, u32 b, u32 carry)
{
    uint64_t u = (uint64_t)a + b + carry;
    u32 v = (u32)u;
    nz(t, v);
    t->c = u >> 32;
    t->v = (~(a ^ b) & (a ^ v)) >> 31;
    return v;
}

static u32 shift(struct target *t, u32 kind, u32 v, u32 by)
{
    if (by == 0) { nz(t, v); return v; }
    switch (kind) {
    case 0: t->c = by <= 32 && v >> (32 - by) & 1; v = by < 32 ? v << by : 0; break;
    case 1: t->c = by <= 32 && v >> (by - 1) & 1; v = by < 32 ? v >> by : 0; break;
    case 2: t->c = (int32_t)v >> (by <= 32 ? by - 1 : 31) & 1; v = (u32)((int32_t)v >> (by < 32 ? by : 31)); break;
    default: by &= 31; if (by) v = v >> by | v << (32 - by); t->c = v >> 31; break;
    }
    nz(t, v);
    return v;
}

static int holds(const struct target *t, u32 condition)
{
    int is;
    switch (condition >> 1) {
    case 0: is = t->z; break;
    case 1: is = t->c; break;
    case 2: is = t->n; break;
    case 3: is = t->v; break;
    case 4: is = t->c && !t->z; break;
    case 5: is = t->n == t->v; break;
    default: is = t->n == t->v && !t->z; break;
    }
    return is ^ (condition & 1);
}

static enum end exchange(struct target *t, u32 to)
{
    if (!(to & 1)) return BAD_STATE;
    t->r[15] = to & ~1u;
    return WENT;
}

static enum end alu(struct target *t, u32 op, u32 next)
{
    u32 d = op & 7, a = t->r[d], b = t->r[op >> 3 & 7];
    switch (op >> 6 & 15) {
    case 0: nz(t, t->r[d] = a & b); break;
    case 1: nz(t, t->r[d] = a ^ b); break;
    case 2: t->r[d] = shift(t, 0, a, b & 255); break;
    case 3: t->r[d] = shift(t, 1, a, b & 255); break;
    case 4: t->r[d] = shift(t, 2, a, b & 255); break;
    case 5: t->r[d] = sum(t, a, b, t->c); break;
    case 6: t->r[d] = sum(t, a, ~b, t->c); break;
    case 7: t->r[d] = shift(t, 3, a, b & 255); break;
    case 8: nz(t, a & b); break;
    case 9: t->r[d] = sum(t, 0, ~b, 1); break;
    case 10: sum(t, a, ~b, 1); break;
    case 11: sum(t, a, b, 0); break;
    case 12: nz(t, t->r[d] = a | b); break;
    case 13: nz(t, t->r[d] = a * b); break;
    case 14: nz(t, t->r[d] = a & ~b); break;
    default: nz(t, t->r[d] = ~b); break;
    }
    t->r[15] = next;
    return WENT;
}

static enum end high(struct target *t, u32 op, u32 next)
{
    u32 d = (op & 7) | (op >> 4 & 8), m = op >> 3 & 15, v = reg(t, m);
    switch (op >> 8 & 3) {
    case 0:
        if (d == 15 && m == 15) return UNDEFINED;
        v += reg(t, d);
        if (d == 15) { t->r[15] = v & ~1u; return WENT; }
        set(t, d, v);
        break;
    case 1:
        if ((d < 8 && m < 8) || d == 15 || m == 15) return UNDEFINED;
        sum(t, reg(t, d), ~v, 1);
        break;
    case 2:
        if (d == 15) { t->r[15] = v & ~1u; return WENT; }
        set(t, d, v);
        break;
    default:
        if (op & 7) return UNDEFINED;
        if (op & 0x80) { if (!(v & 1)) return BAD_STATE; t->r[14] = next | 1; }
        return exchange(t, v);
    }
    t->r[15] = next;
    return WENT;
}

static enum end access_at(struct target *t, u32 kind, u32 rt, u32 at, u32 next)
{
    u32 v = 0;
    enum end e;
    switch (kind) {
    case 0: e = store(t, at, 4, t->r[rt]); break;
    case 1: e = store(t, at, 2, t->r[rt] & 0xFFFF); break;
    case 2: e = store(t, at, 1, t->r[rt] & 0xFF); break;
    case 3: if (!(e = load(t, at, 1, &v))) t->r[rt] = (u32)(int32_t)(int8_t)v; break;
    case 4: if (!(e = load(t, at, 4, &v))) t->r[rt] = v; break;
    case 5: if (!(e = load(t, at, 2, &v))) t->r[rt] = v; break;
    case 6: if (!(e = load(t, at, 1, &v))) t->r[rt] = v; break;
    default: if (!(e = load(t, at, 2, &v))) t->r[rt] = (u32)(int32_t)(int16_t)v; break;
    }
    if (!e) t->r[15] = next;
    return e;
}

static enum end push_pop(struct target *t, u32 op, u32 next)
{
    u32 list = op & 0x1FF, count = __builtin_popcount(list), at, i, got[9];
    enum end e;
    if (!list) return UNDEFINED;
    if (!(op & 0x800)) {
        u32 sp = at = t->r[13] - 4 * count;
        for (i = 0; i < 9; i++) if (list >> i & 1) { if ((e = store(t, at, 4, t->r[i == 8 ? 14 : i]))) return e; at += 4; }
        t->r[13] = sp;
        t->r[15] = next;
        return WENT;
    }
    at = t->r[13];
    for (i = 0; i < 9; i++) if (list >> i & 1) { if ((e = load(t, at, 4, &got[i]))) return e; at += 4; }
    if (list >> 8 && !(got[8] & 1)) return BAD_STATE;
    for (i = 0; i < 8; i++) if (list >> i & 1) t->r[i] = got[i];
    t->r[13] = at;
    t->r[15] = list >> 8 ? got[8] & ~1u : next;
    return WENT;
}

static enum end many(struct target *t, u32 op, u32 next)
{
    u32 n = op >> 8 & 7, at = t->r[n], i, got[8];
    enum end e;
    if (!(op & 0xFF)) return UNDEFINED;
    for (i = 0; i < 8; i++) if (op >> i & 1) {
        if ((e = op & 0x800 ? load(t, at, 4, &got[i]) : store(t, at, 4, t->r[i]))) return e;
        at += 4;
    }
    if (op & 0x800) for (i = 0; i < 8; i++) if (op >> i & 1) t->r[i] = got[i];
    if (!(op & 0x800) || !(op >> n & 1)) t->r[n] = at;
    t->r[15] = next;
    return WENT;
}

static enum end misc(struct target *t, u32 op, u32 next)
{
    u32 d = op & 7, v = t->r[op >> 3 & 7];
    switch (op >> 8 & 15) {
    case 0: t->r[13] = t->r[13] + (op & 0x80 ? -((op & 0x7F) * 4) : (op & 0x7F) * 4); break;
    case 2:
        switch (op >> 6 & 3) {
        case 0: t->r[d] = (u32)(int32_t)(int16_t)v; break;
        case 1: t->r[d] = (u32)(int32_t)(int8_t)v; break;
        case 2: t->r[d] = v & 0xFFFF; break;
        default: t->r[d] = v & 0xFF; break;
        }
        break;
    case 4: case 5: case 12: case 13: return push_pop(t, op, next);
    case 6: if ((op & 0xFFEF) != 0xB662) return UNDEFINED; t->primask = op >> 4 & 1; break;
    case 10:
        switch (op >> 6 & 3) {
        case 0: t->r[d] = __builtin_bswap32(v); break;
        case 1: t->r[d] = (v & 0xFF00FF) << 8 | (v >> 8 & 0xFF00FF); break;
        case 3: t->r[d] = (u32)(int32_t)(int16_t)((v & 0xFF) << 8 | (v >> 8 & 0xFF)); break;
        default: return UNDEFINED;
        }
        break;
    case 14: return BREAK;
    case 15: if (op & 15 || (op >> 4 & 15) > 4) return UNDEFINED; break;
    default: return UNDEFINED;
    }
    t->r[15] = next;
    return WENT;
}

static enum end wide(struct target *t, u32 op, u32 pc)
{
    u32 second, s, to;
    enum end e = load(t, pc + 2, 2, &second);
    if (e) return e;
    if ((op & 0xF800) != 0xF000 || (second & 0xD000) != 0xD000) return UNDEFINED;
    s = op >> 10 & 1;
    to = (op & 0x3FF) << 12 | (second & 0x7FF) << 1 | (~((second >> 13) ^ s) & 1) << 23 | (~((second >> 11) ^ s) & 1) << 22;
    if (s) to |= 0xFF000000u;
    t->r[14] = (pc + 4) | 1;
    t->r[15] = pc + 4 + to;
    return WENT;
}

static enum end step(struct target *t)
{
    static const unsigned char kinds[] = { 0, 4, 2, 6, 1, 5 };
    static const unsigned char scale[] = { 4, 4, 1, 1, 2, 2 };
    u32 op, pc = t->r[15], next = pc + 2, d, k;
    enum end e = load(t, pc, 2, &op);
    if (e) return e;
    switch (op >> 12) {
    case 0: case 1:
        d = op & 7;
        if ((op >> 11 & 3) == 3) {
            u32 b = op & 0x400 ? op >> 6 & 7 : t->r[op >> 6 & 7], a = t->r[op >> 3 & 7];
            t->r[d] = op & 0x200 ? sum(t, a, ~b, 1) : sum(t, a, b, 0);
        } else {
            u32 by = op >> 6 & 31;
            t->r[d] = shift(t, op >> 11 & 3, t->r[op >> 3 & 7], by == 0 && (op >> 11 & 3) ? 32 : by);
        }
        break;
    case 2: case 3:
        d = op >> 8 & 7;
        switch (op >> 11 & 3) {
        case 0: nz(t, t->r[d] = op & 0xFF); break;
        case 1: sum(t, t->r[d], ~(op & 0xFF), 1); break;
        case 2: t->r[d] = sum(t, t->r[d], op & 0xFF, 0); break;
        default: t->r[d] = sum(t, t->r[d], ~(op & 0xFF), 1); break;
        }
        break;
    case 4:
        if (op & 0x800) return access_at(t, 4, op >> 8 & 7, ((pc + 4) & ~3u) + (op & 0xFF) * 4, next);
        return op & 0x400 ? high(t, op, next) : alu(t, op, next);
    case 5: return access_at(t, op >> 9 & 7, op & 7, t->r[op >> 3 & 7] + t->r[op >> 6 & 7], next);
    case 6: case 7: case 8:
        k = (op >> 12) * 2 - 12 + (op >> 11 & 1);
        return access_at(t, kinds[k], op & 7, t->r[op >> 3 & 7] + (op >> 6 & 31) * scale[k], next);
    case 9: return access_at(t, op & 0x800 ? 4 : 0, op >> 8 & 7, t->r[13] + (op & 0xFF) * 4, next);
    case 10: t->r[op >> 8 & 7] = (op & 0x800 ? t->r[13] : (pc + 4) & ~3u) + (op & 0xFF) * 4; break;
    case 11: return misc(t, op, next);
    case 12: return many(t, op, next);
    case 13:
        if ((op >> 8 & 15) >= 14) return UNDEFINED;
        t->r[15] = holds(t, op >> 8 & 15) ? pc + 4 + (u32)((int32_t)(int8_t)op * 2) : next;
        return WENT;
    case 14:
        if (op & 0x800) return wide(t, op, pc);
        t->r[15] = pc + 4 + (u32)((int32_t)(op << 21) >> 20);
        return WENT;
    default: return wide(t, op, pc);
    }
    t->r[15] = next;
    return WENT;
}

int main(int count, char **words)
{
    static struct target t;
    int i;
    for (i = 2; i < count; i++) {
        unsigned long long made = 0, fuel = 1ull << 40;
        enum end e = WENT;
        FILE *f = fopen(words[i], "rb");
        if (!f) return 1;
        memset(&t, 0, sizeof t);
        memset(t.cells, 0xFF, sizeof t.cells);
        fread(t.ram + 32, 1, 2048, f);
        fclose(f);
        t.r[0] = strtoul(words[1], 0, 10);
        t.r[13] = RAM_BASE + RAM_SIZE;
        t.r[14] = RAM_BASE | 1;
        t.r[15] = RAM_BASE + 32;
        while (t.r[15] != RAM_BASE && made != fuel) {
            if ((e = step(&t))) break;
            made++;
            tick(&t);
        }
        printf("%s: %llu steps, %s %u\n", words[i], made, e ? "end" : "returned", e ? (u32)e : t.r[0]);
    }
    return 0;
}
