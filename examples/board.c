/* What a board's program does with the two calls: seals a text, opens it, is
 * refused on an altered byte and on an unknown suite. */
#include <stdio.h>
#include <string.h>

#include "koqarpi.h"

static void show(const char *what, const uint8_t *bytes, size_t len) {
    printf("%s ", what);
    for (size_t i = 0; i < len; i++) {
        printf("%02x", bytes[i]);
    }
    printf("\n");
}

int main(void) {
    const uint8_t key[16] = {0, 1, 2, 3, 4, 5, 6, 7, 8, 9, 10, 11, 12, 13, 14, 15};
    const uint8_t nonce[12] = {88};
    const uint8_t header[] = "table 3";
    const uint8_t text[] = "(end)\n";
    const size_t text_len = sizeof text - 1;
    uint8_t siv[16];
    uint8_t sealed[64];
    uint8_t opened[64];

    uint8_t answer = koqarpi_seal(KOQARPI_HS1_SIV, key, sizeof key, nonce, sizeof nonce,
                                  header, sizeof header - 1, text, text_len,
                                  siv, sizeof siv, sealed, sizeof sealed);
    printf("sealed: %u\n", answer);
    show("siv       ", siv, sizeof siv);
    show("ciphertext", sealed, text_len);

    answer = koqarpi_open(KOQARPI_HS1_SIV, key, sizeof key, nonce, sizeof nonce,
                          header, sizeof header - 1, siv, sizeof siv,
                          sealed, text_len, opened, sizeof opened);
    printf("opened: %u, %s", answer, memcmp(opened, text, text_len) == 0 ? "the text: " : "another text\n");
    fwrite(opened, 1, text_len, stdout);

    sealed[2] ^= 1;
    answer = koqarpi_open(KOQARPI_HS1_SIV, key, sizeof key, nonce, sizeof nonce,
                          header, sizeof header - 1, siv, sizeof siv,
                          sealed, text_len, opened, sizeof opened);
    printf("altered: refused %u\n", answer);
    show("out       ", opened, text_len);

    answer = koqarpi_seal(5, key, sizeof key, nonce, sizeof nonce, header, sizeof header - 1,
                          text, text_len, siv, sizeof siv, sealed, sizeof sealed);
    printf("suite 5: refused %u\n", answer);
    return 0;
}
