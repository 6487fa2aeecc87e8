/* What C programs call and the accepted language doesn't have, in terms of what it has. The driver takes from
   library.ll, which a compiler made of this file, the functions that a program calls and doesn't define.
   `putchar` prints a byte, and each byte is a turn of its own; a number by `pg_out` or `pg_print` is one turn. */
#include <stddef.h>
#include <stdint.h>

int putchar(int c);
void pg_print(int64_t value);
void *malloc(size_t n);
typedef struct { uint64_t words[5]; } pthread_mutex_t;
typedef struct { uint64_t words[6]; } pthread_cond_t;
int pthread_mutex_init(pthread_mutex_t *m, const void *a);
int pthread_mutex_lock(pthread_mutex_t *m);
int pthread_mutex_unlock(pthread_mutex_t *m);
int pthread_cond_init(pthread_cond_t *c, const void *a);
int pthread_cond_wait(pthread_cond_t *c, pthread_mutex_t *m);
int pthread_cond_signal(pthread_cond_t *c);
int pthread_cond_broadcast(pthread_cond_t *c);
int pthread_cond_destroy(pthread_cond_t *c);
int pthread_mutex_destroy(pthread_mutex_t *m);

/* ---- text that is printed: each gives how many bytes it printed */

int pg_print_text(const char *s) {
    int n = 0;
    for (; s[n]; n++)
        putchar(s[n]);
    return n;
}

int pg_print_char(int c) {
    putchar(c);
    return 1;
}

/* a number in a base, with at least so many bytes, filled with blanks or zeros in front */
int pg_print_unsigned(uint64_t n, int base, int negative, int width, int fill) {
    char digits[24];
    int count = 0, printed = 0;
    do {
        int digit = (int)(n % (uint64_t)base);
        digits[count++] = (char)(digit < 10 ? '0' + digit : 'a' + digit - 10);
        n /= (uint64_t)base;
    } while (n);
    if (negative && fill == '0')
        printed += pg_print_char('-');
    for (int i = count + negative; i < width; i++)
        printed += pg_print_char(fill);
    if (negative && fill != '0')
        printed += pg_print_char('-');
    while (count)
        printed += pg_print_char(digits[--count]);
    return printed;
}

int pg_print_signed(int64_t n, int width, int fill) {
    return n < 0 ? pg_print_unsigned(0 - (uint64_t)n, 10, 1, width, fill)
                 : pg_print_unsigned((uint64_t)n, 10, 0, width, fill);
}

/* a number without a sign: one that is no signed number in two turns */
void pg_print_natural(uint64_t n) {
    if (n > INT64_MAX) {
        pg_print((int64_t)(n / 10));
        putchar((int)(n % 10) + '0');
    } else {
        pg_print((int64_t)n);
    }
}

int puts(const char *s) {
    pg_print_text(s);
    putchar('\n');
    return 1;
}

/* ---- a failed assertion says where, and ends the program by the trap Unreachable */
void __assert_fail(const char *what, const char *file, unsigned line, const char *function) {
    pg_print_text(file);
    putchar(':');
    pg_print_unsigned(line, 10, 0, 0, ' ');
    pg_print_text(": ");
    pg_print_text(function);
    pg_print_text(": Assertion `");
    pg_print_text(what);
    pg_print_text("' failed.\n");
    __builtin_unreachable();
}

/* ---- memory */

void *calloc(size_t count, size_t size) {
    uint64_t n = count * size;
    if (size && n / size != count)
        return NULL;
    unsigned char *p = malloc(n);
    for (uint64_t i = 0; p && i < n; i++)
        p[i] = 0;
    return p;
}

/* A pointer's word holds the length of its bounds in its bits 21 to 41. */
void *realloc(void *old, size_t n) {
    unsigned char *from = old, *to = malloc(n);
    uint64_t length = old ? (uintptr_t)old >> 21 & 0x1fffff : 0;
    for (uint64_t i = 0; to && i < length && i < n; i++)
        to[i] = from[i];
    return to;
}

void *memcpy(void *to, const void *from, size_t n) {
    for (size_t i = 0; i < n; i++)
        ((volatile unsigned char *)to)[i] = ((const unsigned char *)from)[i];
    return to;
}

void *memmove(void *to, const void *from, size_t n) {
    volatile unsigned char *t = to;
    const unsigned char *f = from;
    if ((uintptr_t)t > (uintptr_t)f)
        for (size_t i = n; i > 0; i--)
            t[i - 1] = f[i - 1];
    else
        for (size_t i = 0; i < n; i++)
            t[i] = f[i];
    return to;
}

void *memset(void *to, int byte, size_t n) {
    for (size_t i = 0; i < n; i++)
        ((volatile unsigned char *)to)[i] = (unsigned char)byte;
    return to;
}

int memcmp(const void *a, const void *b, size_t n) {
    const unsigned char *p = a, *q = b;
    for (size_t i = 0; i < n; i++)
        if (p[i] != q[i])
            return p[i] - q[i];
    return 0;
}

void *memchr(const void *a, int c, size_t n) {
    const unsigned char *p = a;
    for (size_t i = 0; i < n; i++)
        if (p[i] == (unsigned char)c)
            return (void *)(p + i);
    return NULL;
}

/* ---- strings and numbers */

size_t strlen(const char *s) {
    volatile size_t n = 0;
    while (s[n])
        n++;
    return n;
}

int strcmp(const char *a, const char *b) {
    while (*a && *a == *b)
        a++, b++;
    return (unsigned char)*a - (unsigned char)*b;
}

int strncmp(const char *a, const char *b, size_t n) {
    for (; n > 0; a++, b++, n--) {
        if (*a != *b)
            return (unsigned char)*a - (unsigned char)*b;
        if (!*a)
            return 0;
    }
    return 0;
}

char *strcpy(char *to, const char *from) {
    size_t i = 0;
    do
        to[i] = from[i];
    while (from[i++]);
    return to;
}

char *strncpy(char *to, const char *from, size_t n) {
    size_t i = 0;
    for (; i < n && from[i]; i++)
        to[i] = from[i];
    for (; i < n; i++)
        to[i] = 0;
    return to;
}

char *strcat(char *to, const char *from) {
    strcpy(to + strlen(to), from);
    return to;
}

char *strchr(const char *s, int c) {
    for (;; s++) {
        if (*s == (char)c)
            return (char *)s;
        if (!*s)
            return NULL;
    }
}

int isdigit(int c) { return c >= '0' && c <= '9'; }
int isspace(int c) { return c == ' ' || (c >= '\t' && c <= '\r'); }
int isupper(int c) { return c >= 'A' && c <= 'Z'; }
int islower(int c) { return c >= 'a' && c <= 'z'; }
int isalpha(int c) { return isupper(c) || islower(c); }
int isalnum(int c) { return isalpha(c) || isdigit(c); }
int toupper(int c) { return islower(c) ? c - 32 : c; }
int tolower(int c) { return isupper(c) ? c + 32 : c; }

int64_t atol(const char *s) {
    uint64_t n = 0;
    int negative = 0;
    while (isspace(*s))
        s++;
    if (*s == '-' || *s == '+')
        negative = *s++ == '-';
    for (; isdigit(*s); s++)
        n = n * 10 + (uint64_t)(*s - '0');
    return (int64_t)(negative ? 0 - n : n);
}

int atoi(const char *s) { return (int)atol(s); }
int64_t atoll(const char *s) { return atol(s); }

int abs(int n) { return n < 0 ? -n : n; }
int64_t labs(int64_t n) { return n < 0 ? -n : n; }
int64_t llabs(int64_t n) { return n < 0 ? -n : n; }

/* One fixed generator, that of the C standard's example with more bits: the same numbers in each run. It is one
   state for all threads, so two threads that call it race. */
static uint64_t pg_seed = 1;

void srand(unsigned seed) { pg_seed = seed; }

int rand(void) {
    pg_seed = pg_seed * 6364136223846793005u + 1442695040888963407u;
    return (int)(pg_seed >> 33);
}

/* ---- threads */

/* Thread t's stack begins at granule 2^21 + t * 2^15, and a pointer's word holds its granule from bit 42 on. */
uint64_t pthread_self(void) {
    uint64_t here = 0;
    return (((uintptr_t)&here >> 42) - 0x200000) >> 15;
}

int pthread_equal(uint64_t a, uint64_t b) { return a == b; }
int sched_yield(void) { return 0; }

/* A semaphore: glibc's has 32 bytes, which hold no mutex and condition, so these lie behind a pointer. */
struct pg_semaphore { pthread_mutex_t lock; pthread_cond_t more; uint64_t count; };

int sem_init(struct pg_semaphore **s, int shared, unsigned count) {
    struct pg_semaphore *it = malloc(sizeof *it);
    if (!it)
        return -1;
    pthread_mutex_init(&it->lock, NULL);
    pthread_cond_init(&it->more, NULL);
    it->count = count;
    *s = it;
    return 0;
}

int sem_wait(struct pg_semaphore **s) {
    struct pg_semaphore *it = *s;
    pthread_mutex_lock(&it->lock);
    while (it->count == 0)
        pthread_cond_wait(&it->more, &it->lock);
    it->count--;
    pthread_mutex_unlock(&it->lock);
    return 0;
}

int sem_trywait(struct pg_semaphore **s) {
    struct pg_semaphore *it = *s;
    pthread_mutex_lock(&it->lock);
    int taken = it->count > 0;
    if (taken)
        it->count--;
    pthread_mutex_unlock(&it->lock);
    return taken ? 0 : -1;
}

int sem_post(struct pg_semaphore **s) {
    struct pg_semaphore *it = *s;
    pthread_mutex_lock(&it->lock);
    it->count++;
    pthread_cond_signal(&it->more);
    pthread_mutex_unlock(&it->lock);
    return 0;
}

int sem_getvalue(struct pg_semaphore **s, int *value) {
    struct pg_semaphore *it = *s;
    pthread_mutex_lock(&it->lock);
    *value = (int)it->count;
    pthread_mutex_unlock(&it->lock);
    return 0;
}

int sem_destroy(struct pg_semaphore **s) {
    struct pg_semaphore *it = *s;
    pthread_cond_destroy(&it->more);
    pthread_mutex_destroy(&it->lock);
    return 0;
}

/* A lock of readers and writers, who wait in no order. glibc's has 56 bytes: the mutex needs 40, and the
   condition lies behind a pointer. All zero is a lock that is free, as PTHREAD_RWLOCK_INITIALIZER. */
struct pg_lock { pthread_mutex_t lock; pthread_cond_t *change; int32_t readers; int32_t writing; };

static pthread_cond_t *pg_change_of(struct pg_lock *l) {
    if (!l->change) {
        l->change = malloc(sizeof *l->change);
        pthread_cond_init(l->change, NULL);
    }
    return l->change;
}

int pthread_rwlock_init(struct pg_lock *l, const void *a) {
    pthread_mutex_init(&l->lock, NULL);
    l->change = NULL;
    l->readers = l->writing = 0;
    return 0;
}

int pthread_rwlock_rdlock(struct pg_lock *l) {
    pthread_mutex_lock(&l->lock);
    while (l->writing)
        pthread_cond_wait(pg_change_of(l), &l->lock);
    l->readers++;
    pthread_mutex_unlock(&l->lock);
    return 0;
}

int pthread_rwlock_wrlock(struct pg_lock *l) {
    pthread_mutex_lock(&l->lock);
    while (l->writing || l->readers)
        pthread_cond_wait(pg_change_of(l), &l->lock);
    l->writing = 1;
    pthread_mutex_unlock(&l->lock);
    return 0;
}

int pthread_rwlock_unlock(struct pg_lock *l) {
    pthread_mutex_lock(&l->lock);
    if (l->writing)
        l->writing = 0;
    else
        l->readers--;
    pthread_cond_broadcast(pg_change_of(l));
    pthread_mutex_unlock(&l->lock);
    return 0;
}

int pthread_rwlock_destroy(struct pg_lock *l) {
    if (l->change)
        pthread_cond_destroy(l->change);
    return pthread_mutex_destroy(&l->lock);
}

/* pthread_once: the driver writes, for each function that is called once, a call between these two. */
static pthread_mutex_t pg_once_lock;
static pthread_cond_t pg_once_done;

/* gives 1 to the first that comes, and waits until it is done for all others */
int pg_once_begin(int32_t *state) {
    pthread_mutex_lock(&pg_once_lock);
    while (*state == 1)
        pthread_cond_wait(&pg_once_done, &pg_once_lock);
    int first = *state == 0;
    if (first)
        *state = 1;
    pthread_mutex_unlock(&pg_once_lock);
    return first;
}

void pg_once_end(int32_t *state) {
    pthread_mutex_lock(&pg_once_lock);
    *state = 2;
    pthread_cond_broadcast(&pg_once_done);
    pthread_mutex_unlock(&pg_once_lock);
}
