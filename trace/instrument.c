/* SPDX-License-Identifier: GPL-2.0-or-later */
/* The frame of the tool inside the program: which statements of a block call back, and with what. */
#include "tracer.h"
#include "libvex_guest_amd64.h"
#include "pub_tool_debuginfo.h"
#include "pub_tool_libcassert.h"
#include "pub_tool_libcbase.h"
#include "pub_tool_libcprint.h"
#include "pub_tool_machine.h"

/* A block on its way, with the instruction that is current in it. */
struct work {
    IRSB *block;
    Addr place;
    struct instruction now;
};

/* What the program calls back. */

static VG_REGPARM(3) void store_is_made(Addr address, UWord size_and_kind, Addr place)
{
    log_store(address, size_and_kind & 0xffff, size_and_kind >> 16, place);
}

static void swap_is_made(Addr address, UWord size, Addr place, ULong difference)
{
    if (difference == 0)
        log_store(address, size, ORDINARY, place);
}

static VG_REGPARM(3) void line_is_flushed(Addr address, UWord kind, Addr place)
{
    if (range_covers(address & ~(Addr)(LINE - 1), (address | (LINE - 1)) + 1) == 0)
        return;
    log_write_back(address, address + 1, place);
    if (kind == CLFLUSH && settings.fence_behind_clflush)
        log_fence(place);
}

static VG_REGPARM(1) void fence_is_made(Addr place)
{
    log_fence(place);
}

/* (of the many that there are, those alone that have something to settle) */
static VG_REGPARM(1) void lock_is_taken(Addr place)
{
    if (had_a_range() && VG_(sizeXA)(thread_now()->pending))
        log_fence(place);
}

static VG_REGPARM(1) void instruction_is_unknown(Addr place)
{
    HChar bytes[6 * 3 + 1] = "";
    UInt i;

    if (!is_first(UNKNOWN_INSTRUCTION))
        return;
    /* (the page behind it may not be there) */
    for (i = 0; i < 6 && (i == 0 || (place + i) % PAGE != 0); i++)
        VG_(sprintf)(bytes + 3 * i, " %02x", *((const UChar *)place + i));
    say_fault("an instruction that this Valgrind does not know:%s, in %s", bytes, place_text(place));
}

static VG_REGPARM(1) void write_back_is_strange(Addr place)
{
    if (is_first(STRANGE_WRITE_BACK))
        say_fault("a write-back that this Valgrind takes apart in a way of its own can't be logged, in %s", place_text(place));
}

static ULong leaf, subleaf;

static VG_REGPARM(2) void processor_is_asked(ULong rax, ULong rcx)
{
    leaf = rax & 0xffffffff;
    subleaf = rcx & 0xffffffff;
}

/* The processor has CLFLUSHOPT and CLWB, whatever Valgrind knows of. */
static VG_REGPARM(1) ULong processor_answers(ULong rbx)
{
    return leaf == 7 && subleaf == 0 ? rbx | 1UL << 23 | 1UL << 24 : rbx;
}

/* What is put into a block. */

static IRExpr *number(ULong value)
{
    return IRExpr_Const(IRConst_U64(value));
}

static IRExpr *hold(struct work *work, IRType type, IRExpr *value)
{
    IRTemp temporary = newIRTemp(work->block->tyenv, type);

    addStmtToIRSB(work->block, IRStmt_WrTmp(temporary, value));
    return IRExpr_RdTmp(temporary);
}

static IRExpr *binary(struct work *work, IROp operation, IRExpr *left, IRExpr *right)
{
    return hold(work, Ity_I64, IRExpr_Binop(operation, left, right));
}

static IRExpr *register_at(struct work *work, Int offset)
{
    return hold(work, Ity_I64, IRExpr_Get(offset, Ity_I64));
}

/* Where frames are wanted, the call reads the registers by which stacks are walked. */
static void reads_stack(IRDirty *call)
{
    static const Int offsets[3] = {offsetof(VexGuestAMD64State, guest_RIP), offsetof(VexGuestAMD64State, guest_RSP),
        offsetof(VexGuestAMD64State, guest_RBP)};
    UInt i;

    call->nFxState = 3;
    for (i = 0; i < 3; i++) {
        call->fxState[i].fx = Ifx_Read;
        call->fxState[i].offset = offsets[i];
        call->fxState[i].size = sizeof(ULong);
        call->fxState[i].nRepeats = 0;
        call->fxState[i].repeatLen = 0;
    }
}

static void add_call(struct work *work, IRDirty *call, IRExpr *guard)
{
    if (guard)
        call->guard = guard;
    if (settings.stacks) {
        addStmtToIRSB(work->block, IRStmt_Put(offsetof(VexGuestAMD64State, guest_RIP), number(work->place)));
        reads_stack(call);
    }
    addStmtToIRSB(work->block, IRStmt_Dirty(call));
}

static void call_with_place(struct work *work, const HChar *name, void *function)
{
    add_call(work, unsafeIRDirty_0_N(1, name, VG_(fnptr_to_fnentry)(function), mkIRExprVec_1(number(work->place))), NULL);
}

/* Whether the address is near a range. */
static IRExpr *is_near(struct work *work, IRExpr *address)
{
    IRExpr *low = hold(work, Ity_I64, IRExpr_Load(Iend_LE, Ity_I64, number((Addr)&hull_low)));
    IRExpr *size = hold(work, Ity_I64, IRExpr_Load(Iend_LE, Ity_I64, number((Addr)&hull_size)));

    return hold(work, Ity_I1, IRExpr_Binop(Iop_CmpLT64U, binary(work, Iop_Sub64, address, low), size));
}

static IRExpr *is_both(struct work *work, IRExpr *one, IRExpr *other)
{
    IRExpr *first = hold(work, Ity_I64, IRExpr_Unop(Iop_1Uto64, one));
    IRExpr *second = hold(work, Ity_I64, IRExpr_Unop(Iop_1Uto64, other));

    return hold(work, Ity_I1, IRExpr_Binop(Iop_CmpNE64, binary(work, Iop_And64, first, second), number(0)));
}

static enum store_kind store_kind(const struct work *work)
{
    return work->now.kind == NON_TEMPORAL_STORE ? NON_TEMPORAL : work->now.kind == REPEATED_STRING ? REPEATED : ORDINARY;
}

static void behind_store(struct work *work, IRExpr *address, SizeT size, IRExpr *guard)
{
    IRExpr *near = is_near(work, address);
    IRExpr **words = mkIRExprVec_3(address, number(size | (UWord)store_kind(work) << 16), number(work->place));

    add_call(work, unsafeIRDirty_0_N(3, "store_is_made", VG_(fnptr_to_fnentry)(&store_is_made), words),
        guard ? is_both(work, near, guard) : near);
}

static IRExpr *widened(struct work *work, IRExpr *value)
{
    IRType type = typeOfIRExpr(work->block->tyenv, value);
    IROp widening = type == Ity_I8 ? Iop_8Uto64 : type == Ity_I16 ? Iop_16Uto64 : Iop_32Uto64;

    return type == Ity_I64 ? value : hold(work, Ity_I64, IRExpr_Unop(widening, value));
}

/* Zero where a compare-and-swap found what it expected. */
static IRExpr *difference(struct work *work, IRTemp found, IRExpr *expected)
{
    return binary(work, Iop_Xor64, widened(work, IRExpr_RdTmp(found)), widened(work, expected));
}

static void behind_swap(struct work *work, const IRCAS *swap)
{
    SizeT size = sizeofIRType(typeOfIRExpr(work->block->tyenv, swap->dataLo));
    IRExpr *differs = difference(work, swap->oldLo, swap->expdLo);

    if (swap->dataHi) {
        differs = binary(work, Iop_Or64, differs, difference(work, swap->oldHi, swap->expdHi));
        size *= 2;
    }
    if (settings.fence_before_lock)
        call_with_place(work, "lock_is_taken", &lock_is_taken);
    add_call(work, unsafeIRDirty_0_N(0, "swap_is_made", VG_(fnptr_to_fnentry)(&swap_is_made),
        mkIRExprVec_4(swap->addr, number(size), number(work->place), differs)), is_near(work, swap->addr));
}

/* A helper of Valgrind's own that stores. */
static void behind_helper(struct work *work, const IRDirty *helper)
{
    IRExpr **words;

    if (helper->mFx != Ifx_Write && helper->mFx != Ifx_Modify)
        return;
    words = mkIRExprVec_3(helper->mAddr, number(helper->mSize), number(work->place));
    add_call(work, unsafeIRDirty_0_N(3, "store_is_made", VG_(fnptr_to_fnentry)(&store_is_made), words), helper->guard);
}

static Bool is_asking_processor(const IRDirty *helper)
{
    return VG_(strstr)(helper->cee->name, "dirtyhelper_CPUID") != NULL;
}

static void before_asking(struct work *work)
{
    IRExpr *rax = register_at(work, offsetof(VexGuestAMD64State, guest_RAX));
    IRExpr *rcx = register_at(work, offsetof(VexGuestAMD64State, guest_RCX));

    addStmtToIRSB(work->block, IRStmt_Dirty(unsafeIRDirty_0_N(2, "processor_is_asked", VG_(fnptr_to_fnentry)(&processor_is_asked),
        mkIRExprVec_2(rax, rcx))));
}

static void behind_asking(struct work *work)
{
    IRTemp answer = newIRTemp(work->block->tyenv, Ity_I64);
    IRExpr *rbx = register_at(work, offsetof(VexGuestAMD64State, guest_RBX));

    addStmtToIRSB(work->block, IRStmt_Dirty(unsafeIRDirty_1_N(answer, 1, "processor_answers",
        VG_(fnptr_to_fnentry)(&processor_answers), mkIRExprVec_1(rbx))));
    addStmtToIRSB(work->block, IRStmt_Put(offsetof(VexGuestAMD64State, guest_RBX), IRExpr_RdTmp(answer)));
}

static Bool is_write_back(const struct instruction *instruction)
{
    return instruction->kind == CLWB || instruction->kind == CLFLUSHOPT || instruction->kind == CLFLUSH;
}

static IRExpr *general_register(struct work *work, UInt i)
{
    return register_at(work, offsetof(VexGuestAMD64State, guest_RAX) + i * sizeof(ULong));
}

/* The address of an operand, computed at the end of a block, where all registers are in their places. */
static IRExpr *operand(struct work *work, const struct instruction *of)
{
    IRExpr *address = number(of->displacement + (of->is_next_based ? work->place + of->length : 0));

    if (of->has_base)
        address = binary(work, Iop_Add64, address, general_register(work, of->base));
    if (of->has_index)
        address = binary(work, Iop_Add64, address,
            hold(work, Ity_I64, IRExpr_Binop(Iop_Shl64, general_register(work, of->index), IRExpr_Const(IRConst_U8(of->scale)))));
    if (of->is_narrow)
        address = binary(work, Iop_And64, address, number(0xffffffff));
    if (of->segment)
        address = binary(work, Iop_Add64, address, register_at(work, of->segment == 0x64 ?
            offsetof(VexGuestAMD64State, guest_FS_CONST) : offsetof(VexGuestAMD64State, guest_GS_CONST)));
    return address;
}

/* The block goes on behind a write-back, which is only logged: what it does to caches is nothing that the program can see. */
static void end_in_write_back(struct work *work, Addr place)
{
    IRExpr *address;

    work->place = place;
    address = operand(work, &work->now);
    add_call(work, unsafeIRDirty_0_N(3, "line_is_flushed", VG_(fnptr_to_fnentry)(&line_is_flushed),
        mkIRExprVec_3(address, number(work->now.kind), number(place))), NULL);
    work->block->next = number(place + work->now.length);
    work->block->jumpkind = Ijk_Boring;
}

/* The end of a block: an instruction that Valgrind does not know, or CLFLUSH. */
static void finish(struct work *work, Bool has_open_write_back)
{
    IRSB *block = work->block;

    if (block->jumpkind == Ijk_NoDecode && block->next->tag == Iex_Const) {
        Addr place = block->next->Iex.Const.con->Ico.U64;
        decode((const UChar *)place, &work->now);
        if (is_write_back(&work->now)) {
            end_in_write_back(work, place);
        } else if (work->now.kind != TRAP) {
            work->place = place;
            call_with_place(work, "instruction_is_unknown", &instruction_is_unknown);
        }
    } else if (has_open_write_back && block->jumpkind == Ijk_InvalICache) {
        end_in_write_back(work, work->place);
    } else if (has_open_write_back) {
        call_with_place(work, "write_back_is_strange", &write_back_is_strange);
    }
}

static void copy_helper(struct work *work, IRStmt *statement)
{
    const IRDirty *helper = statement->Ist.Dirty.details;
    Bool is_asking = is_asking_processor(helper);

    if (is_asking)
        before_asking(work);
    addStmtToIRSB(work->block, statement);
    if (is_asking)
        behind_asking(work);
    behind_helper(work, helper);
}

/* A statement, and what is logged behind it: one that faults is not logged. */
static void copy(struct work *work, IRStmt *statement)
{
    IRTypeEnv *types = work->block->tyenv;

    if (statement->tag == Ist_Dirty) {
        copy_helper(work, statement);
        return;
    }
    addStmtToIRSB(work->block, statement);
    if (statement->tag == Ist_Store) {
        behind_store(work, statement->Ist.Store.addr, sizeofIRType(typeOfIRExpr(types, statement->Ist.Store.data)), NULL);
    } else if (statement->tag == Ist_StoreG) {
        const IRStoreG *store = statement->Ist.StoreG.details;
        behind_store(work, store->addr, sizeofIRType(typeOfIRExpr(types, store->data)), store->guard);
    } else if (statement->tag == Ist_CAS) {
        behind_swap(work, statement->Ist.CAS.details);
    } else if (statement->tag == Ist_MBE && work->now.kind == STORE_FENCE) {
        call_with_place(work, "fence_is_made", &fence_is_made);
    }
}

IRSB *instrument(VgCallbackClosure *closure, IRSB *block, const VexGuestLayout *layout, const VexGuestExtents *extents,
    const VexArchInfo *host, IRType guest_word, IRType host_word)
{
    struct work work = {deepCopyIRSBExceptStmts(block), 0, {OTHER}};
    Bool has_open_write_back = False;
    Int i = 0;

    for (; i < block->stmts_used && block->stmts[i]->tag != Ist_IMark; i++)
        addStmtToIRSB(work.block, block->stmts[i]);
    for (; i < block->stmts_used; i++) {
        IRStmt *statement = block->stmts[i];
        if (statement->tag == Ist_IMark) {
            if (has_open_write_back)
                call_with_place(&work, "write_back_is_strange", &write_back_is_strange);
            work.place = statement->Ist.IMark.addr;
            decode((const UChar *)work.place, &work.now);
            has_open_write_back = is_write_back(&work.now);
        }
        copy(&work, statement);
    }
    finish(&work, has_open_write_back);
    return work.block;
}
