/* The exports of the frequency sheet, for C and whatever calls C.
 *
 * A list is a pointer and a length, in elements. An f32 crosses as its bits in a
 * u32, so that -0 keeps its sign. The words of a circuit keep a NaN's payload too,
 * and so do words of Es rows that are not rewritten; every other NaN that is
 * answered in a word, or handed back in a state, is 0x7fc00000. Floats are only the
 * deciles and what the scalar functions take and give; of a NaN that these give
 * neither sign nor payload is said. Each port_ function answers 0, or the number of
 * the refusal, and then no lent cell has changed. A list shorter than is said here
 * is refused with 1; one that is longer is taken, and cells past those that are
 * named are not read and stay as they are. Files, cells (8), and lists that are
 * counted (points, F2M3s, Es rows, deciles, clat, clck, tariffs, prices, traces)
 * have rules of their own.
 *
 * Refusals: 1 length, 2 record 0, 3 a chain's step, 4 a chain's record, 5 count of
 * points, 6 slot or layer, 7 path for the angles, 8 angles or cells, 9 path, 10
 * lists, 11 hop count, 12 time block, 13 sine or cosine outside -4 to 4 (no answer
 * of any of these), 14 F2M3 on the way back, 15 tariff, 16 seconds, 17 prices, 18
 * traces, 19 the profile is another slot's or nobody's, 20 a sheet to be marked is
 * over 49,152 bytes.
 *
 * Nothing here is kept between calls, and no call allocates: they may run at once
 * on lists of their own.
 */
#ifndef FREQUENCY_SHEET_H
#define FREQUENCY_SHEET_H
#include <stddef.h>
#include <stdint.h>
#ifdef __cplusplus
extern "C" {
#endif

/* A circuit: km, shape, gcd, gcdkm, amind, ssn; five points of fifteen words (fi 3,
 * yi 3, hi 3, Es fs 3, hs, clat, clck); 576 deciles. */
#define FS_CIRCUIT_WORDS 657
#define FS_CIRCUIT_POINTS 6
#define FS_CIRCUIT_DECILES 81
/* The same, then the F2M3 of five points. */
#define FS_WIDE_WORDS 662
/* A state: fi, yi, hi, fifteen words each, layer i of slot k at 3 * k + i; km, kfx;
 * htr and fnsq, fifty each; whether htr rises, 0 or 1; fsecv, three; iedp, an i32;
 * ielect, 0 or 1; whose profile it is, 0 nobody's, 1 to 3 slot 0 to 2, 4 supplied
 * (port_owner says what counts); the switch of the exact height rule, 0 or 1. */
#define FS_STATE_WORDS 155
#define FS_STATE_KFX 46
#define FS_STATE_IEDP 151
#define FS_STATE_IELECT 152
#define FS_STATE_OWNER 153
#define FS_STATE_EXACT 154
/* A layer's line: sigl, sigu, delmuf, hpmuf, htmuf, fvmuf, afmuf, nhopmf (an i32),
 * yfot, ymuf, yhpf; four of them, E, F1, F2, Es. */
#define FS_LINE_WORDS 11
#define FS_LINES_WORDS 44
/* An hour: emuf, f1muf, f2muf, esmuf, allmuf, fot, hpf, angmuf, then the mode (1 E,
 * 2 F1, 3 F2) and the controlling slot, then the four lines. */
#define FS_HOUR_WORDS 54
#define FS_HOUR_ALLMUF 4
#define FS_HOUR_LINES 10
/* An ionogram: fvert, hprim, htrue, afac, and the segment of the true height (0 to 49,
 * 50 where nothing was sought), thirty words each. */
#define FS_IONOGRAM_WORDS 150
/* A slot sheet: its ionogram, then the marks of fifty heights: 0 none, 1 D-E tail, 2 E
 * parabola, 3 valley line, 4 F1, 5 F2, 6 gap. */
#define FS_SHEET_WORDS 200
#define FS_DECILES 576
/* The bytes to lend for the text of a sheet. */
#define FS_TEXT_BYTES 8192

/* Circuit files. A file is written into as many bytes as it takes; port_write and
 * port_write128: out 1: how many those are. */
uint32_t port_read(const uint8_t *file, size_t file_len, uint32_t *out, size_t out_len);
uint32_t port_write(const uint32_t *words, size_t words_len, uint8_t *file, size_t file_len, uint32_t *out, size_t out_len);
uint32_t port_read128(const uint8_t *file, size_t file_len, uint32_t *out, size_t out_len);
uint32_t port_write128(const uint32_t *words, size_t words_len, uint8_t *file, size_t file_len, uint32_t *out, size_t out_len);

/* The state of an hour. points: 9 words each, fi, yi, hi. */
uint32_t port_from_layers(const uint32_t *points, size_t points_len, uint32_t *state, size_t state_len);
uint32_t port_ionset(uint32_t *state, size_t state_len);
uint32_t port_lecden(uint32_t *state, size_t state_len, uint32_t k);
/* out 2: 0 for nobody's profile, 1 for a slot's, 2 for a supplied one; the slot. */
uint32_t port_owner(const uint32_t *state, size_t state_len, uint32_t *out, size_t out_len);

/* Heights. port_gethp: out 4: virtual height, true height, the walk's cursor, the segment of the
 * true height; port_gethp_scan the same by scans. port_reading: out 3: kind (0 floor, 1 segment,
 * 2 top), density, segment. */
uint32_t port_gethp(const uint32_t *state, size_t state_len, uint32_t fxx, uint32_t *out, size_t out_len);
uint32_t port_gethp_scan(const uint32_t *state, size_t state_len, uint32_t fxx, uint32_t *out, size_t out_len);
uint32_t port_reading(const uint32_t *state, size_t state_len, uint32_t zi, uint32_t *out, size_t out_len);
uint32_t port_bendy(const uint32_t *state, size_t state_len, uint32_t i, uint32_t k, uint32_t f, uint32_t *out, size_t out_len);
uint32_t port_pen(const uint32_t *state, size_t state_len, uint32_t i, uint32_t k, uint32_t f, uint32_t *out, size_t out_len);
/* xn, yn: 50 words each; out 2: the value, its segment. */
uint32_t port_xlin(uint32_t x, const uint32_t *xn, size_t xn_len, const uint32_t *yn, size_t yn_len, uint32_t *out, size_t out_len);

/* MUF. deciles: FS_DECILES floats; numbers: fmuf, ssn, clat, freq, abb; out: the deviation. */
uint32_t port_f2dis(const float *deciles, size_t deciles_len, const uint32_t *numbers, size_t numbers_len, uint32_t *out, size_t out_len);
/* es: 4 words a row, fs 3 and hs; numbers: gcd, gcdkm, amind, ssn; out: an hour. */
uint32_t port_curmuf(uint32_t *state, size_t state_len, uint32_t *es, size_t es_len, const float *deciles, size_t deciles_len, const uint32_t *clat, size_t clat_len, const uint32_t *clck, size_t clck_len, const uint32_t *numbers, size_t numbers_len, uint32_t *out, size_t out_len);
/* points: 9 words each; f2m3: a word a point; es as above; numbers: gcd, gcdkm; out: an hour. */
uint32_t port_nommuf(const uint32_t *points, size_t points_len, const uint32_t *f2m3, size_t f2m3_len, const uint32_t *es, size_t es_len, const uint32_t *numbers, size_t numbers_len, uint32_t *out, size_t out_len);

/* Ionogram and sheet. out of port_sang: the angles; of port_selmod: the slot; of port_genion: an
 * ionogram; of port_sheet: a slot sheet. cells: thirty an angle. */
uint32_t port_sang(uint32_t gcdkm, uint32_t amind, uint32_t *out, size_t out_len);
uint32_t port_selmod(const uint32_t *state, size_t state_len, uint32_t *out, size_t out_len);
uint32_t port_genion(const uint32_t *state, size_t state_len, uint32_t k, uint32_t *out, size_t out_len);
uint32_t port_alosfv(const uint32_t *state, size_t state_len, uint32_t k, uint32_t *ion, size_t ion_len, const uint32_t *layers, size_t layers_len);
uint32_t port_fobby(const uint32_t *ion, size_t ion_len, uint32_t nang, int32_t *cells, size_t cells_len);
uint32_t port_sheet(uint32_t *state, size_t state_len, uint32_t k, uint32_t nang, const uint32_t *layers, size_t layers_len, int32_t *cells, size_t cells_len, uint32_t *out, size_t out_len);

/* input: four bytes with the length of a circuit file, least significant first, the file, a sheet;
 * out: 0 where the sheet is what `sheet` prints of the file, else its first line that isn't. */
uint32_t port_mark(const uint8_t *input, size_t input_len, uint32_t *out, size_t out_len);

/* file: a circuit file; out: the text that `sheet` prints of it, at the start of FS_TEXT_BYTES bytes;
 * length: a word, the text's length. */
uint32_t port_sheet_text(const uint8_t *file, size_t file_len, uint8_t *out, size_t out_len, uint32_t *length, size_t length_len);

/* The printed figure of a MUF: 5 characters into out. */
uint32_t port_figure(uint32_t muf, uint8_t *out, size_t out_len);
/* tops in tenths of a MHz, rates in cents a minute; out: the cents. */
uint32_t port_price(uint32_t muf, const uint32_t *tops, size_t tops_len, const uint32_t *rates, size_t rates_len, uint32_t seconds, uint32_t *out, size_t out_len);
uint32_t port_total(const uint32_t *prices, size_t prices_len, uint32_t *out, size_t out_len);
uint32_t port_total_last(const uint32_t *prices, size_t prices_len, uint32_t *out, size_t out_len);

/* Traces: kHz and heights in tenths of a kilometre of each; the lines into three lists
 * (which: 0 both, 1 the first only, 2 the second only); out: their count. */
uint32_t port_compare(const uint32_t *a, size_t a_len, const uint32_t *ah, size_t ah_len, const uint32_t *b, size_t b_len, const uint32_t *bh, size_t bh_len, uint32_t *khz, size_t khz_len, uint32_t *which, size_t which_len, int64_t *difference, size_t difference_len, uint32_t *out, size_t out_len);
/* rows: fvert and hprim of thirty rows, 60 words, with which an ionogram begins; khz, height: 30 words each. */
uint32_t port_trace(const uint32_t *rows, size_t rows_len, uint32_t *khz, size_t khz_len, uint32_t *height, size_t height_len);

/* The arithmetic. scalar_sin and scalar_cos answer NaN outside -4 to 4; scalar_trunc is Rust's `as i32`. */
float scalar_sqrt(float x);
float scalar_min(float a, float b);
float scalar_max(float a, float b);
int32_t scalar_trunc(float x);
float scalar_exp(float x);
float scalar_ln(float x);
float scalar_sin(float x);
float scalar_cos(float x);
float scalar_asin(float x);
float scalar_atan(float x);

#ifdef __cplusplus
}
#endif
#endif
