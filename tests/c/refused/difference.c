// how far two places of the code are from each other
int entry(const unsigned char *code, int value) {
    static const int ways[] = {&&add - &&add, &&twice - &&add, &&end - &&add};
    goto *(&&add + ways[*code++]);
add:
    value += 3;
    goto *(&&add + ways[*code++]);
twice:
    value *= 2;
    goto *(&&add + ways[*code++]);
end:
    return value;
}
