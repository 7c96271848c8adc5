/* The checksum of a frame, byte by byte (CRC-16, polynomial 0x1021).
   No alarm: whatever came before, each byte is taken in without a shift that is too wide, and
   the sum keeps its 16 bits. */
unsigned short __any_ushort(void);
unsigned char __any_uchar(void);
void __assert(int condition);

enum { POLYNOMIAL = 0x1021, TOP = 0x8000, ALL = 0xffff };

static unsigned bit(unsigned sum) {
    unsigned shifted = sum << 1;
    if (sum & TOP)
        shifted ^= POLYNOMIAL;
    return shifted & ALL;
}

static unsigned two_bits(unsigned sum) {
    return bit(bit(sum));
}

static unsigned four_bits(unsigned sum) {
    return two_bits(two_bits(sum));
}

static unsigned byte(unsigned sum, unsigned char next) {
    return four_bits(four_bits(sum ^ (unsigned)next << 8));
}

int main(void) {
    for (;;) {
        unsigned sum = __any_ushort();
        sum = byte(sum, __any_uchar());
        __assert(sum <= ALL);
    }
}
