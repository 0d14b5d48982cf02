/* The plain program that the checker is measured against: the same reading, the same two costs, the same four lines. */
#include <stdint.h>
#include <stdio.h>
#include <stdlib.h>
#include <unistd.h>

static unsigned char *text;
static size_t length, at;

static int separates(unsigned char byte) {
    return (byte >= 9 && byte <= 13) || byte == ' ' || byte == ',';
}

static __int128 number(void) {
    while (at < length && separates(text[at])) at++;
    if (at == length) exit(1);
    int negative = text[at] == '-';
    if (text[at] == '-' || text[at] == '+') at++;
    __int128 value = 0;
    size_t first = at;
    for (; at < length && !separates(text[at]); at++) {
        if (text[at] < '0' || text[at] > '9') exit(1);
        value = value * 10 + (text[at] - '0');
    }
    if (at == first) exit(1);
    return negative ? -value : value;
}

static __int128 cost(int n, const int64_t *a, const int64_t *b, const uint16_t *p) {
    __int128 total = 0;
    for (int i = 0; i < n; i++)
        for (int j = 0; j < n; j++) total += a[i * n + j] * b[p[i] * n + p[j]];
    return total;
}

static void line(const char *name, __int128 value) {
    char digits[48];
    int k = 48;
    unsigned __int128 rest = value < 0 ? -(unsigned __int128)value : (unsigned __int128)value;
    do digits[--k] = '0' + (char)(rest % 10); while (rest /= 10);
    if (value < 0) digits[--k] = '-';
    printf("%s %.*s\n", name, 48 - k, digits + k);
}

int main(void) {
    size_t room = 1 << 16;
    text = malloc(room);
    for (ssize_t got; (got = read(0, text + length, room - length)) > 0;) {
        length += (size_t)got;
        if (length == room) text = realloc(text, room *= 2);
    }
    int n = (int)number();
    int64_t *a = malloc(sizeof *a * n * n), *b = malloc(sizeof *b * n * n);
    for (int i = 0; i < n * n; i++) a[i] = (int64_t)number();
    for (int i = 0; i < n * n; i++) b[i] = (int64_t)number();
    if (number() != n) exit(1);
    __int128 stated = number();
    uint16_t *p = malloc(sizeof *p * n), *q = malloc(sizeof *q * n);
    for (int i = 0; i < n; i++) p[i] = (uint16_t)(number() - 1);
    for (int i = 0; i < n; i++) q[p[i]] = (uint16_t)i;
    __int128 direct = cost(n, a, b, p), inverse = cost(n, a, b, q);
    line("cost", direct);
    line("inverse", inverse);
    line("stated", stated);
    puts(direct == stated ? "match direct" : inverse == stated ? "match inverse" : "match none");
    return 0;
}
