#include <ctype.h>
#include <stdio.h>
#include <stdlib.h>
#include <string.h>

#define MAX_ACCOUNTS 12
#define MAX_NAME 10
#define MAX_HISTORY 5
#define LARGEST 1000000

/* Accounts of a bank, in cents. Commands:
 *
 *   open NAME KIND       KIND is giro, saving or young      close NAME
 *   put NAME AMOUNT      take NAME AMOUNT                   move FROM TO AMOUNT
 *   month                interest and fees                  show NAME, all
 *   limit NAME AMOUNT    how far a giro account may go below zero
 */

typedef enum { GIRO, SAVING, YOUNG, KINDS } kind_t;
typedef enum { OK, NO_ACCOUNT, NO_MONEY, BAD_AMOUNT, NOT_ALLOWED, FULL, RESULTS } result_t;

typedef struct {
    int amount;
    char what;
} entry_t;

typedef struct {
    char name[MAX_NAME + 1];
    kind_t kind;
    int balance;
    int limit;
    int taken;
    entry_t history[MAX_HISTORY];
    int entries;
} account_t;

static account_t accounts[MAX_ACCOUNTS];
static int count;
static int months;
static int fees;

static const int rate[KINDS] = { 0, 25, 30 };

static account_t *find(const char *name)
{
    int i;
    for (i = 0; i < count; i++)
        if (strcmp(accounts[i].name, name) == 0)
            return &accounts[i];
    return NULL;
}

static void note(account_t *account, int amount, char what)
{
    entry_t entry;
    int i;
    entry.amount = amount;
    entry.what = what;
    if (account->entries == MAX_HISTORY) {
        for (i = 1; i < MAX_HISTORY; i++)
            account->history[i - 1] = account->history[i];
        account->entries--;
    }
    account->history[account->entries++] = entry;
}

static result_t open_account(const char *name, const char *kind)
{
    account_t *account;
    if (find(name) != NULL)
        return NOT_ALLOWED;
    if (count == MAX_ACCOUNTS)
        return FULL;
    account = &accounts[count];
    strncpy(account->name, name, MAX_NAME);
    account->name[MAX_NAME] = '\0';
    if (strcmp(kind, "giro") == 0)
        account->kind = GIRO;
    else if (strcmp(kind, "saving") == 0)
        account->kind = SAVING;
    else if (strcmp(kind, "young") == 0)
        account->kind = YOUNG;
    else
        return NOT_ALLOWED;
    account->balance = 0;
    account->limit = 0;
    account->taken = 0;
    account->entries = 0;
    count++;
    return OK;
}

static result_t close_account(account_t *account)
{
    int place = (int)(account - accounts);
    int i;
    if (account->balance != 0)
        return NOT_ALLOWED;
    for (i = place + 1; i < count; i++)
        accounts[i - 1] = accounts[i];
    count--;
    return OK;
}

static result_t may_take(const account_t *account, int amount)
{
    if (amount <= 0)
        return BAD_AMOUNT;
    if (account->balance + account->limit < amount)
        return NO_MONEY;
    if (account->kind == YOUNG && account->taken + amount > 2000)
        return NOT_ALLOWED;
    return OK;
}

static result_t put_money(account_t *account, int amount)
{
    if (amount <= 0 || amount > LARGEST - account->balance)
        return BAD_AMOUNT;
    account->balance += amount;
    note(account, amount, '+');
    return OK;
}

static result_t take_money(account_t *account, int amount)
{
    result_t result = may_take(account, amount);
    if (result != OK)
        return result;
    account->balance -= amount;
    account->taken += amount;
    note(account, amount, '-');
    return OK;
}

static result_t move_money(account_t *from, account_t *to, int amount)
{
    result_t result = may_take(from, amount);
    if (result != OK)
        return result;
    if (from == to)
        return NOT_ALLOWED;
    result = put_money(to, amount);
    if (result != OK)
        return result;
    return take_money(from, amount);
}

static result_t set_limit(account_t *account, int amount)
{
    if (account->kind != GIRO)
        return NOT_ALLOWED;
    if (amount < 0 || amount > 100000 || account->balance < -amount)
        return BAD_AMOUNT;
    account->limit = amount;
    return OK;
}

/* A month: interest in hundredths of a per cent, 12 per cent a year below zero, a fee for each empty account. */
static void month(void)
{
    int i;
    months++;
    for (i = 0; i < count; i++) {
        account_t *account = &accounts[i];
        int interest = 0;
        if (account->balance > 0)
            interest = account->balance / 100 * rate[account->kind] / 100;
        else if (account->balance < 0)
            interest = account->balance / 100 - 1;
        else
            fees += 50;
        if (interest != 0) {
            account->balance += interest;
            note(account, interest < 0 ? -interest : interest, interest < 0 ? 'd' : 'i');
        }
        account->taken = 0;
    }
}

static void show(const account_t *account)
{
    int i;
    int cents = abs(account->balance);
    printf("%-10s %c%6d.%02d", account->name, account->balance < 0 ? '-' : ' ', cents / 100, cents % 100);
    for (i = 0; i < account->entries; i++)
        printf(" %c%d", account->history[i].what, account->history[i].amount);
    putchar('\n');
}

static void show_all(void)
{
    int i;
    int total = 0;
    for (i = 0; i < count; i++) {
        show(&accounts[i]);
        total += accounts[i].balance;
    }
    printf("%d accounts, %d in all, %d months, %d fees\n", count, total, months, fees);
}

static void tell(const char *command, result_t result)
{
    switch (result) {
    case OK:
        break;
    case NO_ACCOUNT:
        printf("%s: no such account\n", command);
        break;
    case NO_MONEY:
        printf("%s: not enough\n", command);
        break;
    case BAD_AMOUNT:
        printf("%s: a bad amount\n", command);
        break;
    case NOT_ALLOWED:
        printf("%s: not allowed\n", command);
        break;
    default:
        printf("%s: full\n", command);
    }
}

static char *next_word(char **text)
{
    char *word;
    while (isspace((unsigned char)**text))
        (*text)++;
    word = *text;
    while (**text && !isspace((unsigned char)**text))
        (*text)++;
    if (**text)
        *(*text)++ = '\0';
    return word;
}

static void command(char *text)
{
    char *word = next_word(&text);
    char *name = next_word(&text);
    char *other = next_word(&text);
    account_t *account = find(name);
    result_t result = NO_ACCOUNT;
    if (*word == '\0')
        return;
    if (strcmp(word, "month") == 0) {
        month();
        return;
    }
    if (strcmp(word, "all") == 0) {
        show_all();
        return;
    }
    if (strcmp(word, "open") == 0) {
        tell(word, open_account(name, other));
        return;
    }
    if (account != NULL) {
        if (strcmp(word, "close") == 0)
            result = close_account(account);
        else if (strcmp(word, "put") == 0)
            result = put_money(account, atoi(other));
        else if (strcmp(word, "take") == 0)
            result = take_money(account, atoi(other));
        else if (strcmp(word, "limit") == 0)
            result = set_limit(account, atoi(other));
        else if (strcmp(word, "show") == 0) {
            show(account);
            result = OK;
        } else if (strcmp(word, "move") == 0) {
            account_t *to = find(other);
            if (to != NULL)
                result = move_money(account, to, atoi(next_word(&text)));
        } else
            result = NOT_ALLOWED;
    }
    tell(word, result);
}

int main(void)
{
    char text[60];
    while (fgets(text, sizeof text, stdin) != NULL)
        command(text);
    show_all();
    return 0;
}
