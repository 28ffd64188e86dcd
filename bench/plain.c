/* What bench/leaves.c measures the leaves beside: plain C, compiled by clang -O2. */
typedef unsigned char byte;
typedef __SIZE_TYPE__ size;
void *memset(void *, int, size);
void *memcpy(void *, const void *, size);

void plain_erase(byte *flash, size sector, size target) {
    memset(flash + target * sector, 0xFF, sector);
}

void plain_copy(byte *flash, size sector, size source, size target, size count) {
    byte *to = flash + target * sector;
    memcpy(to, flash + source * sector, count);
    memset(to + count, 0xFF, sector - count);
}

unsigned plain_sum(const byte *body, size length) {
    unsigned sum = 0;
    for (const byte *end = body + length / 4 * 4; body != end; body += 4)
        sum += body[0] | (unsigned)body[1] << 8 | (unsigned)body[2] << 16 | (unsigned)body[3] << 24;
    return sum;
}

size plain_search(const byte *flash, size sector, size boundary) {
    static const byte mark[5] = {'B', 'N', 'I', 1, 0};
    for (size t = boundary; t-- > 0;) {
        size i = 0;
        while (i < 5 && flash[t * sector + i] == mark[i])
            i++;
        if (i == 5)
            return t;
    }
    return boundary;
}
