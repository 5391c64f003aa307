/* Accounts in a pool of libpmemobj, each of a thread that pays in so often: objects POOL THREADS TIMES [add | persist]: what the word
 * names is left out. */
#include <libpmemobj.h>
#include <pthread.h>
#include <stdint.h>
#include <stdio.h>
#include <stdlib.h>
#include <string.h>

struct account {
    uint64_t balance;
    uint64_t changes;
    char rest_of_the_line[48];
    char name[64];
};

struct root {
    PMEMoid accounts[4];
};

static PMEMobjpool *pool;
static int is_added = 1, is_persisted = 1, times;

static struct account *account_of(int i)
{
    struct root *root = pmemobj_direct(pmemobj_root(pool, sizeof(struct root)));

    return pmemobj_direct(root->accounts[i]);
}

static void open_account(int i)
{
    struct root *root = pmemobj_direct(pmemobj_root(pool, sizeof *root));

    TX_BEGIN(pool) {
        pmemobj_tx_add_range_direct(&root->accounts[i], sizeof(PMEMoid));
        root->accounts[i] = pmemobj_tx_zalloc(sizeof(struct account), 1);
    } TX_END
}

static void pay_in(int i, uint64_t amount)
{
    struct account *account = account_of(i);

    TX_BEGIN(pool) {
        pmemobj_tx_add_range_direct(&account->balance, sizeof account->balance);
        account->balance += amount;
        if (is_added)
            pmemobj_tx_add_range_direct(&account->changes, sizeof account->changes);
        account->changes += 1;
    } TX_END
}

static void name_account(int i, const char *name)
{
    struct account *account = account_of(i);

    strcpy(account->name, name);
    if (is_persisted)
        pmemobj_persist(pool, account->name, sizeof account->name);
}

static void *work(void *number)
{
    int i;

    for (i = 0; i < times; i++)
        pay_in((int)(intptr_t)number, 10);
    return NULL;
}

int main(int count, char **words)
{
    pthread_t threads[4];
    int i, used = count > 3 ? atoi(words[2]) : 0;

    if (used < 1 || used > 4)
        return 9;
    times = atoi(words[3]);
    is_added = !(count > 4 && strcmp(words[4], "add") == 0);
    is_persisted = !(count > 4 && strcmp(words[4], "persist") == 0);
    pool = pmemobj_create(words[1], "accounts", PMEMOBJ_MIN_POOL, 0666);
    if (!pool)
        pool = pmemobj_open(words[1], "accounts");
    if (!pool)
        return 9;
    for (i = 0; i < used; i++)
        open_account(i);
    printf("changes=%p name=%p\n", (void *)&account_of(0)->changes, (void *)account_of(0)->name);
    name_account(0, "somebody");
    for (i = 1; i < used; i++)
        pthread_create(&threads[i], NULL, work, (void *)(intptr_t)i);
    work((void *)0);
    for (i = 1; i < used; i++)
        pthread_join(threads[i], NULL);
    pmemobj_close(pool);
    return 0;
}
