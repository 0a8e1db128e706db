/* Bare sealing and opening by suite number, for the board's own program.
 *
 * Link with target/staticlib/libsuites.a (made by examples/run-board, from the
 * crate suites_c).
 *
 * Both calls check everything that they are handed and answer with a number:
 * 0 where the work is done, else the number of the refusal. They use no heap
 * and keep nothing between calls. That they answer on every input, stay inside
 * the buffers and do exactly what is written here is proved, as long as the
 * caller keeps to two rules that no called program can check:
 *
 * - Each pointer with its length is a buffer of the caller's own: that many
 *   bytes may be read, and in siv_out and out that many may be written. With
 *   length 0 nothing is read or written there, but the pointer must not be
 *   null: hand over the address of any object.
 * - siv_out and out overlap neither each other nor any other buffer. The
 *   buffers that are only read may overlap one another.
 */
#ifndef KOQARPI_H
#define KOQARPI_H

#include <stddef.h>
#include <stdint.h>

#ifdef __cplusplus
extern "C" {
#endif

/* Suites: the stream and the strength that a sealing is done with. */
#define KOQARPI_HS1_SIV_LO 1u /* "hs1-siv-lo": ChaCha 8,  SIV of 8 bytes  */
#define KOQARPI_HS1_SIV 2u    /* "hs1-siv":    ChaCha 12, SIV of 16 bytes */
#define KOQARPI_HS1_SIV_HI 3u /* "hs1-siv-hi": ChaCha 20, SIV of 32 bytes */
#define KOQARPI_LOFT_AES 4u   /* "loft-aes":   AES-256,   SIV of 16 bytes */

/* Answers of the two calls. */
#define KOQARPI_DONE 0
#define KOQARPI_SHORT_OUTPUT 4   /* out or siv_out is too short */
#define KOQARPI_UNKNOWN_SUITE 5  /* no suite has that number */
#define KOQARPI_KEY_LENGTH 7     /* the key has no byte or more than 32 */
#define KOQARPI_WRONG_SIV 13     /* the SIV is not the one that sealing gives */
#define KOQARPI_TOO_LONG 15      /* header, text or ciphertext above 65,536 bytes */
#define KOQARPI_SIV_LENGTH 16    /* the SIV has not the suite's length */
#define KOQARPI_NONCE_LENGTH 17  /* the nonce has not 12 bytes */

/* Refusals that other parts of the project answer with. */
#define KOQARPI_SHORT_WORK 1
#define KOQARPI_SMALL_TRAY 2
#define KOQARPI_PAST_STREAM 3
#define KOQARPI_NO_SLOT 6
#define KOQARPI_ROLL_USED_UP 8
#define KOQARPI_UNLAWFUL_ITEM 9
#define KOQARPI_LARGE_SHEET 10
#define KOQARPI_NO_SEALED_LINE 11
#define KOQARPI_OTHER_KIND 12
#define KOQARPI_NO_SHEET 14
#define KOQARPI_EMPTY_SLOT 21
#define KOQARPI_STALE_SERIAL 22

/* Seals a text under a key, a nonce and a header.
 *
 * Needs: key of 1 to 32 bytes, nonce of 12, header and text of at most 65,536
 * each, siv_out of at least the suite's SIV length, out of at least text_len.
 * Checks in this order: 5, 7, 17, 15, 4.
 * Answers 0 and leaves the SIV in the first bytes of siv_out and the
 * ciphertext in the first text_len bytes of out; the bytes past them stay.
 * On a refusal both buffers are as they were.
 * One nonce must not be used twice with one key. */
uint8_t koqarpi_seal(uint32_t suite,
                     const uint8_t *key, size_t key_len,
                     const uint8_t *nonce, size_t nonce_len,
                     const uint8_t *header, size_t header_len,
                     const uint8_t *text, size_t text_len,
                     uint8_t *siv_out, size_t siv_len,
                     uint8_t *out, size_t out_len);

/* Opens a ciphertext under a key, a nonce, a header and a SIV.
 *
 * Needs: the same of key, nonce, header and ciphertext, siv_len exactly the
 * suite's SIV length, out of at least ciphertext_len.
 * Checks in this order: 5, 7, 17, 15, 16, 4, 13.
 * Answers 0 and leaves the text in the first ciphertext_len bytes of out; the
 * bytes past it stay. Where the SIV is not the one that sealing gives (13),
 * the first ciphertext_len bytes of out are zeros; on every other refusal out
 * is as it was. */
uint8_t koqarpi_open(uint32_t suite,
                     const uint8_t *key, size_t key_len,
                     const uint8_t *nonce, size_t nonce_len,
                     const uint8_t *header, size_t header_len,
                     const uint8_t *siv, size_t siv_len,
                     const uint8_t *ciphertext, size_t ciphertext_len,
                     uint8_t *out, size_t out_len);

#ifdef __cplusplus
}
#endif

#endif
