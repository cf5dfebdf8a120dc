/* Prints the circuit MUF, in MHz, of the circuit file on standard input. */
#include "frequency_sheet.h"
#include <stdio.h>
#include <string.h>

static int refused(uint32_t n) {
    printf("refused %u\n", n);
    return 1;
}

int main(void) {
    uint8_t file[4097];
    size_t n = fread(file, 1, sizeof file, stdin);
    uint32_t c[FS_CIRCUIT_WORDS], state[FS_STATE_WORDS] = {0}, hour[FS_HOUR_WORDS];
    uint32_t no = port_read(file, n, c, FS_CIRCUIT_WORDS);
    if (no) return refused(no);

    /* a point's fifteen words: fi 3, yi 3, hi 3, Es fs 3, hs, clat, clck */
    uint32_t km = c[0], points[45], es[20], clat[5], clck[5];
    for (uint32_t k = 0; k < km; k++) {
        const uint32_t *p = c + FS_CIRCUIT_POINTS + 15 * k;
        memcpy(points + 9 * k, p, 9 * sizeof *p);
        memcpy(es + 4 * k, p + 9, 4 * sizeof *p);
        clat[k] = p[13];
        clck[k] = p[14];
    }
    if ((no = port_from_layers(points, 9 * km, state, FS_STATE_WORDS))) return refused(no);
    state[FS_STATE_IEDP] = c[1] == 0 ? UINT32_MAX : 0; /* shape 0: iedp -1 */
    if ((no = port_ionset(state, FS_STATE_WORDS))) return refused(no);

    float deciles[FS_DECILES];
    memcpy(deciles, c + FS_CIRCUIT_DECILES, sizeof deciles);
    /* gcd, gcdkm, amind, ssn are words 2 to 5 */
    no = port_curmuf(state, FS_STATE_WORDS, es, 4 * km, deciles, FS_DECILES, clat, km, clck, km, c + 2, 4, hour,
                     FS_HOUR_WORDS);
    if (no) return refused(no);
    float muf;
    memcpy(&muf, hour + FS_HOUR_ALLMUF, sizeof muf);
    printf("%.3f MHz\n", muf);
    return 0;
}
