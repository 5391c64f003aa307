/* SPDX-License-Identifier: GPL-2.0-or-later */
/* Instructions by their bytes: write-backs with their operands, fences, non-temporal stores, repeated strings. */
#include "tracer.h"
#include "pub_tool_libcbase.h"

struct prefixes {
    Bool has_66, has_f2, has_f3, has_67;
    UChar segment, rex;
};

enum { REX_B = 1, REX_X = 2 };

/* The prefixes of an instruction; the answer is where its opcode stands. */
static const UChar *read_prefixes(const UChar *at, struct prefixes *read)
{
    const UChar *end = at + 14;

    for (; at < end; at++) {
        if (*at == 0x66)
            read->has_66 = True;
        else if (*at == 0xf2)
            read->has_f2 = True;
        else if (*at == 0xf3)
            read->has_f3 = True;
        else if (*at == 0x67)
            read->has_67 = True;
        else if (*at == 0x64 || *at == 0x65)
            read->segment = *at;
        else if (*at != 0x26 && *at != 0x2e && *at != 0x36 && *at != 0x3e && *at != 0xf0)
            break;
    }
    if ((*at & 0xf0) == 0x40)
        read->rex = *at++;
    return at;
}

static Int little_endian(const UChar *at)
{
    return (Int)((UInt)at[0] | (UInt)at[1] << 8 | (UInt)at[2] << 16 | (UInt)at[3] << 24);
}

/* A SIB byte, with the mode of the ModRM byte before it. */
static void read_sib(UChar sib, UInt mode, UChar rex, struct instruction *read)
{
    UInt index = ((sib >> 3) & 7) | (rex & REX_X ? 8 : 0);

    read->has_index = index != 4;
    read->index = index;
    read->scale = sib >> 6;
    read->has_base = !((sib & 7) == 5 && mode == 0);
    read->base = (sib & 7) | (rex & REX_B ? 8 : 0);
}

/* An operand in memory: from the ModRM byte on; the answer is what follows it. */
static const UChar *read_operand(const UChar *at, const struct prefixes *prefixes, struct instruction *read)
{
    UInt mode = *at >> 6, low = *at & 7;
    Bool has_wide_displacement = mode == 2;

    at++;
    read->is_narrow = prefixes->has_67;
    read->segment = prefixes->segment;
    if (low == 4) {
        read_sib(*at, mode, prefixes->rex, read);
        at++;
        has_wide_displacement = has_wide_displacement || !read->has_base;
    } else if (low == 5 && mode == 0) {
        read->is_next_based = True;
        has_wide_displacement = True;
    } else {
        read->has_base = True;
        read->base = low | (prefixes->rex & REX_B ? 8 : 0);
    }
    if (has_wide_displacement) {
        read->displacement = little_endian(at);
        return at + 4;
    }
    if (mode == 1) {
        read->displacement = (signed char)*at;
        return at + 1;
    }
    return at;
}

/* The group of fences and write-backs, behind its opcode 0F AE. */
static void read_group(const UChar *start, const UChar *at, const struct prefixes *prefixes, struct instruction *read)
{
    UInt number = (*at >> 3) & 7;
    Bool is_in_memory = *at >> 6 != 3;

    if (prefixes->has_f2 || prefixes->has_f3)
        return;
    if (!is_in_memory) {
        if (!prefixes->has_66 && (number == 6 || number == 7))
            read->kind = STORE_FENCE;
        return;
    }
    if (number == 6 && prefixes->has_66)
        read->kind = CLWB;
    else if (number == 7)
        read->kind = prefixes->has_66 ? CLFLUSHOPT : CLFLUSH;
    else
        return;
    read->length = read_operand(at, prefixes, read) - start;
}

/* Those of the opcodes 0F xx that store past the cache. */
static Bool is_non_temporal(UChar opcode)
{
    return opcode == 0x2b || opcode == 0xe7 || opcode == 0xc3 || opcode == 0xf7;
}

/* MOVS and STOS. */
static Bool is_storing_string(UChar opcode)
{
    return opcode == 0xa4 || opcode == 0xa5 || opcode == 0xaa || opcode == 0xab;
}

/* An instruction with a VEX prefix, which begins at the bytes. */
static void read_vex(const UChar *at, struct instruction *read)
{
    Bool is_short = at[0] == 0xc5;
    UChar opcode = is_short ? at[2] : at[3];

    if ((is_short || (at[1] & 0x1f) == 1) && is_non_temporal(opcode) && opcode != 0xc3)
        read->kind = NON_TEMPORAL_STORE;
}

void decode(const UChar *bytes, struct instruction *read)
{
    struct prefixes prefixes = {0};
    const UChar *at = read_prefixes(bytes, &prefixes);

    VG_(memset)(read, 0, sizeof *read);
    if (at[0] == 0xc5 || at[0] == 0xc4)
        read_vex(at, read);
    else if (is_storing_string(at[0]) && (prefixes.has_f2 || prefixes.has_f3))
        read->kind = REPEATED_STRING;
    else if (at[0] == 0x0f && at[1] == 0xae)
        read_group(bytes, at + 2, &prefixes, read);
    else if (at[0] == 0x0f && is_non_temporal(at[1]))
        read->kind = NON_TEMPORAL_STORE;
    else if (at[0] == 0x0f && at[1] == 0x0b)
        read->kind = TRAP;
}
