/* Loaded into ll_refused before its own libraries, this refuses allocations as that program orders. An order is an allocation of 2^62 bytes and a number more,
   which is more than there is. It fails, but for the last of these:

   - N, below 2^40: the Nth allocation from here on is refused, counting those of malloc, calloc and realloc together;
   - 2^40: every allocation from here on is refused;
   - 2^41: none is refused from here on. This allocation returns one byte if an allocation was refused since the order before, and otherwise fails. */
#include <errno.h>
#include <stddef.h>

extern void *__libc_malloc(size_t size);
extern void *__libc_calloc(size_t count, size_t size);
extern void *__libc_realloc(void *at, size_t size);

static const size_t ORDERS = (size_t)1 << 62;
static const size_t EVERY = (size_t)1 << 40;
static const size_t NONE = (size_t)1 << 41;

/* How many allocations there are up to and with the refused one, or 0 if none is to be refused; whether every one is; whether one was. */
static size_t left;
static int every;
static int met;

/* Carries out a size as an order, if it is one. Returns whether it is, and sets what the allocation returns. */
static int is_order(size_t size, void **answer)
{
    if (size < ORDERS)
        return 0;
    size_t number = size - ORDERS;
    *answer = number == NONE && met ? __libc_malloc(1) : NULL;
    left = number < EVERY ? number : 0;
    every = number == EVERY;
    met = 0;
    errno = ENOMEM;
    return 1;
}

static int is_refused(void)
{
    if (!every && (left == 0 || --left != 0))
        return 0;
    met = 1;
    errno = ENOMEM;
    return 1;
}

void *malloc(size_t size)
{
    void *answer;
    if (is_order(size, &answer))
        return answer;
    return is_refused() ? NULL : __libc_malloc(size);
}

void *calloc(size_t count, size_t size)
{
    void *answer;
    if (count == 1 && is_order(size, &answer))
        return answer;
    return is_refused() ? NULL : __libc_calloc(count, size);
}

void *realloc(void *at, size_t size)
{
    void *answer;
    if (is_order(size, &answer))
        return answer;
    return is_refused() ? NULL : __libc_realloc(at, size);
}
