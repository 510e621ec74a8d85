// Computed goto: a machine whose instructions are labels, in a table of addresses; and a label that is handed about.
#include <stdio.h>

static int run(const unsigned char *code, int value) {
    static void *const ways[] = {&&add, &&twice, &&less, &&repeat, &&end};
    int times = 3;
    goto *ways[*code++];
add:
    value += *code++;
    goto *ways[*code++];
twice:
    value *= 2;
    goto *ways[*code++];
less:
    value -= 7;
    goto *ways[*code++];
repeat:
    if (--times)
        code -= *code;
    else
        code++;
    goto *ways[*code++];
end:
    return value;
}

static int states(const char *text) {
    void *state = &&blank;
    int words = 0;
    for (; *text; text++) {
        goto *state;
    blank:
        if (*text != ' ') {
            words++;
            state = &&word;
        }
        continue;
    word:
        if (*text == ' ') state = &&blank;
    }
    return words;
}

int main(int guest) {
    static const unsigned char code[] = {0, 5, 1, 2, 3, 5, 4};
    printf("%d %d %d\n", run(code, guest), run(code, 10), run(code + 6, 4));
    printf("%d %d\n", states("three little  words"), states(""));
    return 0;
}
