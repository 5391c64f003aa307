/* Two accounts in a pool of libpmemobj, and payments from the one to the other.
 *
 *     accounts POOL
 *
 * A payment is a transaction. Each field that it changes has to be added first, so that a crash midway can be undone. With
 * -DMISSING_ADD one field is not added. The program has no marker: under tools/trace the requests that libpmemobj itself makes
 * of Valgrind become the markers of its transactions. */
#include <libpmemobj.h>
#include <stdint.h>
#include <stdio.h>

struct account {
    uint64_t balance;
    uint64_t payments;
};

struct accounts {
    struct account from;
    struct account to;
};

static void pay(PMEMobjpool *pool, struct accounts *accounts, uint64_t amount)
{
    TX_BEGIN(pool) {
        pmemobj_tx_add_range_direct(&accounts->from, sizeof accounts->from);
        accounts->from.balance -= amount;
        accounts->from.payments++;
        pmemobj_tx_add_range_direct(&accounts->to.balance, sizeof accounts->to.balance);
#ifndef MISSING_ADD
        pmemobj_tx_add_range_direct(&accounts->to.payments, sizeof accounts->to.payments);
#endif
        accounts->to.balance += amount;
        accounts->to.payments++;
    } TX_END
}

int main(int count, char **words)
{
    PMEMobjpool *pool = NULL;
    struct accounts *accounts;
    int i;

    if (count == 2) {
        pool = pmemobj_create(words[1], "accounts", PMEMOBJ_MIN_POOL, 0666);
        if (!pool)
            pool = pmemobj_open(words[1], "accounts");
    }
    if (!pool) {
        fprintf(stderr, "usage: accounts POOL\n");
        return 2;
    }
    accounts = pmemobj_direct(pmemobj_root(pool, sizeof *accounts));
    for (i = 0; i < 3; i++)
        pay(pool, accounts, 10);
    pmemobj_close(pool);
    return 0;
}
