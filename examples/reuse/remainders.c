/* The Chinese remainder theorem: each number of the input is a remainder by the next prime. Workers compute the parts of the
   sum that has all these remainders, and main adds them up and tests the sum. */
#include "peregrine.h"
#include <pthread.h>
#include <stdio.h>

#define WORKERS 3
#define MOST 8

struct job {
    long prime;
    long remainder;
    long part;
};

static const long primes[MOST] = {2, 3, 5, 7, 11, 13, 17, 19};
static struct job jobs[MOST];
static int job_count;
static long product = 1;

/* the number below the prime whose product with n has the remainder 1, by Euclid */
static long inverse(long n, long prime) {
    long a = n % prime, b = prime, x = 1, y = 0;
    while (a > 1) {
        long q = b / a, r = b % a, z = y - q * x;
        b = a;
        a = r;
        y = x;
        x = z;
    }
    return x < 0 ? x + prime : x;
}

static void *solve(void *argument) {
    for (int i = (int)(long)argument; i < job_count; i += WORKERS) {
        struct job *job = &jobs[i];
        long others = product / job->prime;
        job->part = job->remainder * others % product * inverse(others, job->prime) % product;
    }
    return NULL;
}

int main(void) {
    pthread_t workers[WORKERS];
    for (int64_t i = 0; i < pg_in_len() && i < MOST; i++) {
        struct job *job = &jobs[job_count++];
        job->prime = primes[i];
        job->remainder = pg_in(i) % job->prime;
        if (job->remainder < 0)
            job->remainder += job->prime;
        product *= job->prime;
    }
    for (long i = 0; i < WORKERS; i++)
        pthread_create(&workers[i], NULL, solve, (void *)i);
    for (int i = 0; i < WORKERS; i++)
        pthread_join(workers[i], NULL);
    long sum = 0;
    for (int i = 0; i < job_count; i++)
        sum = (sum + jobs[i].part) % product;
    printf("%ld of %ld\n", sum, product);
    for (int i = 0; i < job_count; i++)
        if (sum % jobs[i].prime != jobs[i].remainder)
            printf("wrong by %ld\n", jobs[i].prime);
    return 0;
}
