// A plain SM3 block in C with all rounds written out, to measure the proved one beside. Written from document 01's condensed form.
typedef __UINT8_TYPE__ uint8_t;
typedef __UINT32_TYPE__ uint32_t;
typedef __UINT64_TYPE__ uint64_t;

#define ROL(x, n) (((x) << ((n) & 31)) | ((x) >> ((32 - (n)) & 31)))
#define P0(x) ((x) ^ ROL(x, 9) ^ ROL(x, 17))
#define P1(x) ((x) ^ ROL(x, 15) ^ ROL(x, 23))
#define XOR3(x, y, z) ((x) ^ (y) ^ (z))
#define MAJORITY(x, y, z) (((x) & (y)) | (((x) | (y)) & (z)))
#define CHOICE(x, y, z) ((((y) ^ (z)) & (x)) ^ (z))

// Word j + 16 over word j of a ring of sixteen: made when round j needs word j + 4.
#define NEXT(j)                                                                                                                                      \
    (w[(j) % 16] = P1(w[(j) % 16] ^ w[((j) + 7) % 16] ^ ROL(w[((j) + 13) % 16], 15)) ^ ROL(w[((j) + 3) % 16], 7) ^ w[((j) + 10) % 16])

#define ROUND(a, b, c, d, e, f, g, h, FF, GG, T, j)                                                                                                  \
    do {                                                                                                                                             \
        uint32_t wj = w[(j) % 16];                                                                                                                   \
        if ((j) >= 12)                                                                                                                               \
            NEXT((j) + 4 - 16);                                                                                                                      \
        uint32_t a12 = ROL(a, 12), ss1 = ROL(a12 + (e) + (uint32_t)ROL((uint32_t)(T), (j) % 32), 7);                                                 \
        d += FF(a, b, c) + (ss1 ^ a12) + (wj ^ w[((j) + 4) % 16]);                                                                                   \
        h += GG(e, f, g) + ss1 + wj;                                                                                                                 \
        b = ROL(b, 9);                                                                                                                               \
        f = ROL(f, 19);                                                                                                                              \
        h = P0(h);                                                                                                                                   \
    } while (0)

#define FOUR(FF, GG, T, j)                                                                                                                           \
    ROUND(A, B, C, D, E, F, G, H, FF, GG, T, j);                                                                                                     \
    ROUND(D, A, B, C, H, E, F, G, FF, GG, T, j + 1);                                                                                                 \
    ROUND(C, D, A, B, G, H, E, F, FF, GG, T, j + 2);                                                                                                 \
    ROUND(B, C, D, A, F, G, H, E, FF, GG, T, j + 3)

#define FIRST(j) FOUR(XOR3, XOR3, 0x79cc4519, j)
#define LATER(j) FOUR(MAJORITY, CHOICE, 0x7a879d8a, j)

static uint32_t word(const uint8_t *p) { return (uint32_t)p[0] << 24 | (uint32_t)p[1] << 16 | (uint32_t)p[2] << 8 | p[3]; }

void plain_fold(uint32_t v[8], const uint8_t *bytes, uint64_t blocks) {
    for (; blocks; blocks--, bytes += 64) {
        uint32_t w[16], A = v[0], B = v[1], C = v[2], D = v[3], E = v[4], F = v[5], G = v[6], H = v[7];
        for (int i = 0; i < 16; i++)
            w[i] = word(bytes + 4 * i);
        FIRST(0);
        FIRST(4);
        FIRST(8);
        FIRST(12);
        LATER(16);
        LATER(20);
        LATER(24);
        LATER(28);
        LATER(32);
        LATER(36);
        LATER(40);
        LATER(44);
        LATER(48);
        LATER(52);
        LATER(56);
        LATER(60);
        v[0] ^= A, v[1] ^= B, v[2] ^= C, v[3] ^= D, v[4] ^= E, v[5] ^= F, v[6] ^= G, v[7] ^= H;
    }
}
