/*
 * The judge beside a plain C judge that does the same sweeps, on 4,096 labels and a rule text of 128 bytes with nine
 * temporal operators. Prints nanoseconds for each part and position, and the ratio. Both run on the same labels, turn
 * about; the best of all rounds counts, and the answers are compared in each.
 */
#define _POSIX_C_SOURCE 199309L
#include <stdio.h>
#include <stdlib.h>
#include <string.h>
#include <time.h>
#include "presscheck.h"

enum { POSITIONS = 4096, LEAD_IN = 1000, ROUNDS = 200, MOST_PARTS = 128 };

struct part {
    char sign;
    int left, right;
};

static struct part parts[MOST_PARTS];
static int count;
static const char *at;

static int add(char sign, int left, int right)
{
    parts[count] = (struct part){sign, left, right};
    return count++;
}

static int rule(void);

static int unary(void)
{
    char c = *at++;
    if (c == '(') {
        int f = rule();
        at++;
        return f;
    }
    if (c == '!' || c == 'X' || c == 'F' || c == 'G') {
        int f = unary();
        return add(c, f, 0);
    }
    return add(c, 0, 0);
}

static int until(void)
{
    int f = unary();
    if (*at == 'U' || *at == 'R') {
        char c = *at++;
        int g = until();
        return add(c, f, g);
    }
    return f;
}

static int chain(char sign, int (*operand)(void))
{
    int f = operand();
    while (*at == sign) {
        at++;
        int g = operand();
        f = add(sign, f, g);
    }
    return f;
}

static int conjunction(void)
{
    return chain('&', until);
}

static int rule(void)
{
    int f = chain('|', conjunction);
    if (*at == '-') {
        at += 2;
        int g = rule();
        return add('>', f, g);
    }
    return f;
}

/* One row for each part. Until and release go round the loop twice, from the last position back. */
static int plain_judge(const uint16_t *labels, int n, int u, uint8_t *work)
{
    for (int p = 0; p < count; p++) {
        uint8_t *row = work + (size_t)p * n;
        const uint8_t *f = work + (size_t)parts[p].left * n;
        const uint8_t *g = work + (size_t)parts[p].right * n;
        char sign = parts[p].sign;
        if (sign == 'F' || sign == 'G') {
            g = f;
        }
        if (sign == 'F' || sign == 'U') {
            uint8_t next = 0;
            for (int i = n - 1; i >= u; i--) next = g[i] | ((sign == 'F' ? 1 : f[i]) & next);
            for (int i = n - 1; i >= 0; i--) row[i] = next = g[i] | ((sign == 'F' ? 1 : f[i]) & next);
            continue;
        }
        if (sign == 'G' || sign == 'R') {
            uint8_t next = 1;
            for (int i = n - 1; i >= u; i--) next = g[i] & ((sign == 'G' ? 0 : f[i]) | next);
            for (int i = n - 1; i >= 0; i--) row[i] = next = g[i] & ((sign == 'G' ? 0 : f[i]) | next);
            continue;
        }
#define EACH(value) for (int i = 0; i < n; i++) row[i] = (uint8_t)(value)
        switch (sign) {
        case '!': EACH(!f[i]); break;
        case '&': EACH(f[i] & g[i]); break;
        case '|': EACH(f[i] | g[i]); break;
        case '>': EACH((!f[i]) | g[i]); break;
        case 'X': EACH(f[i + 1 == n ? u : i + 1]); break;
        case '0': EACH(0); break;
        case '1': EACH(1); break;
        default: EACH((labels[i] >> (sign - 'a')) & 1); break;
        }
    }
    return work[(size_t)(count - 1) * n];
}

static double seconds(void)
{
    struct timespec t;
    clock_gettime(CLOCK_MONOTONIC, &t);
    return (double)t.tv_sec + 1e-9 * (double)t.tv_nsec;
}

int main(void)
{
    static const char text[] = "G(a->F(b&!c))&(dUeRf|X(g&h))|F(G(i|!j)&k)->(l&m|n&o|p)&(!a|b&c|d)&(e|f&!g|h)&!GF(i&j|!k&l)|"
                               "(m|n&!o|p&a)&(b|!c)&(d|e)&(f|g&!h)&!i";
    static uint16_t labels[POSITIONS];
    static uint8_t bytes[2 * POSITIONS], work[128 * POSITIONS], plain_work[128 * POSITIONS];
    size_t length = strlen(text);
    unsigned long random = 12345;
    for (int i = 0; i < POSITIONS; i++) {
        random = random * 6364136223846793005ul + 1442695040888963407ul;
        labels[i] = (uint16_t)(random >> 33);
        bytes[2 * i] = (uint8_t)(labels[i] & 0xff);
        bytes[2 * i + 1] = (uint8_t)(labels[i] >> 8);
    }
    at = text;
    rule();
    double library = 1, plain = 1;
    for (int round = 0; round <= ROUNDS; round++) {
        double t0 = seconds();
        uint32_t answer = presscheck_judge((const uint8_t *)text, length, bytes, sizeof bytes, LEAD_IN, work, sizeof work);
        double t1 = seconds();
        int expected = plain_judge(labels, POSITIONS, LEAD_IN, plain_work);
        double t2 = seconds();
        if (answer != (uint32_t)expected) {
            printf("the answers differ: %u and %d\n", answer, expected);
            return 1;
        }
        library = t1 - t0 < library ? t1 - t0 : library;
        plain = t2 - t1 < plain ? t2 - t1 : plain;
    }
    double cells = (double)count * POSITIONS;
    printf("%zu bytes, %d parts, %d positions\n", length, count, POSITIONS);
    printf("library  %.3f ns for each part and position\n", 1e9 * library / cells);
    printf("plain C  %.3f ns\n", 1e9 * plain / cells);
    printf("ratio    %.2f\n", library / plain);
    return 0;
}
