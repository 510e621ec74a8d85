// Calls at the end: by name, by pointer, to one another, with many arguments; deep recursion.
#include <stdint.h>
#include <stdio.h>
#include <stdlib.h>

typedef int (*next)(int n, int sum);
static int odd(int n, int s);

__attribute__((noinline)) static int even(int n, int s) { return n ? odd(n - 1, s + 1) : s; }

__attribute__((noinline)) static int odd(int n, int s) { return n ? even(n - 1, s + 2) : -s; }

__attribute__((noinline)) static int hop(int n, int s) {
    extern next const ways[];
    return n ? ways[n & 3](n - 1, s + n) : s;
}

__attribute__((noinline)) static int skip(int n, int s) {
    extern next const ways[];
    if (n < 2) return s;
    next w = n & 1 ? ways[0] : ways[1];
    return w(n - 2, s ^ n);
}

next const ways[] = {hop, skip, even, hop};

struct node {
    struct node *left, *right;
    int value;
};

static int sum(const struct node *n) { return n ? n->value + sum(n->left) + sum(n->right) : 0; }

static struct node *insert(struct node *n, int v) {
    if (!n) {
        n = malloc(sizeof *n);
        *n = (struct node){0, 0, v};
    } else if (v < n->value)
        n->left = insert(n->left, v);
    else
        n->right = insert(n->right, v);
    return n;
}

static int ack(int m, int n) { return !m ? n + 1 : !n ? ack(m - 1, 1) : ack(m - 1, ack(m, n - 1)); }

static int many(int a, int b, int c, int d, int e, int f, int g, int h, int i) {
    return i ? many(b, c, d, e, f, g, h, a, i - 1) : a * 10 + b;
}

static void hanoi(int n, char a, char b, char c, void (*move)(char, char)) {
    if (n) {
        hanoi(n - 1, a, c, b, move);
        move(a, b);
        hanoi(n - 1, c, b, a, move);
    }
}

static void show(char a, char b) {
    putchar(a);
    putchar(b);
    putchar(' ');
}

static int moves;

static void count(char a, char b) {
    (void)a;
    (void)b;
    moves++;
}

static int two(int k, int (*f)(struct node *), int (*g)(const struct node *), struct node *n) {
    if (k) return f(n);
    return g(n);
}

static int clear(struct node *n) {
    n->value = 0;
    return 1;
}

int main(int guest) {
    printf("%d %d %d %d\n", even(1001, 0), even(1000, 0), hop(57, guest), skip(90, 1));
    struct node *root = 0;
    uint32_t x = 1;
    for (int i = 0; i < 60; i++) {
        x = x * 1664525 + 1013904223;
        root = insert(root, (int)(x >> 24));
    }
    int (*volatile t)(int, int (*)(struct node *), int (*)(const struct node *), struct node *) = two;
    int before = sum(root), done = t(1, clear, sum, root->left);
    printf("%d %d %d %d\n", before, done, t(0, clear, sum, root), ack(2, 5));
    hanoi(3, 'A', 'B', 'C', show);
    hanoi(8, 'A', 'B', 'C', count);
    printf("%d %d\n", moves, many(1, 2, 3, 4, 5, 6, 7, 8, 5));
    return 0;
}
