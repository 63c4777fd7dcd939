/* The compiled workload: numbers of a generator are sorted, divided and summed up by a CRC. Position-independent, no data. */
typedef unsigned int u32;
u32 compiled(u32 rounds)
{
    u32 crc = 0xFFFFFFFFu, x = 1;
    while (rounds--) {
        u32 a[16], i, j, k;
        for (i = 0; i < 16; i++) { x = x * 1664525u + 1013904223u; a[i] = x; }
        for (i = 1; i < 16; i++) {
            u32 v = a[i];
            for (j = i; j > 0 && a[j - 1] > v; j--) a[j] = a[j - 1];
            a[j] = v;
        }
        for (i = 1; i < 16; i++) {
            u32 q = a[i] / ((a[0] >> 20) + i);
            crc ^= q;
            for (k = 0; k < 8; k++) crc = (crc >> 1) ^ (0xEDB88320u & -(crc & 1));
        }
    }
    return ~crc;
}
#ifdef HOST
#include <stdio.h>
#include <stdlib.h>
int main(int n, char **w) { printf("%08X\n", compiled(strtoul(w[1], 0, 10))); return 0; }
#endif
