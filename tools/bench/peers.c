// SPDX-License-Identifier: MIT OR Apache-2.0
// The encoders beside which this workspace is measured, each as one call: the width of the symbol
// at level L, or 0.
#include <stdbool.h>
#include <stddef.h>
#include <stdint.h>
#include <string.h>
#include <qrencode.h>

// libqrencode splits a text into modes, but no bytes with a zero among them.
int peer_qrencode(const uint8_t *bytes, size_t count, bool kanji) {
    char text[8192];
    QRcode *code;
    if (memchr(bytes, 0, count)) {
        code = QRcode_encodeData((int)count, bytes, 0, QR_ECLEVEL_L);
    } else {
        memcpy(text, bytes, count);
        text[count] = 0;
        code = QRcode_encodeString(text, 0, QR_ECLEVEL_L, kanji ? QR_MODE_KANJI : QR_MODE_8, 1);
    }
    int width = code ? code->width : 0;
    QRcode_free(code);
    return width;
}

#ifdef ZINT
#include <zint.h>
int peer_zint(const uint8_t *bytes, size_t count) {
    struct zint_symbol *symbol = ZBarcode_Create();
    symbol->symbology = BARCODE_QRCODE;
    symbol->option_1 = 1;
    symbol->input_mode = DATA_MODE;
    int width = ZBarcode_Encode(symbol, bytes, (int)count) < ZINT_ERROR ? symbol->width : 0;
    ZBarcode_Delete(symbol);
    return width;
}
#endif

#ifdef QRCODEGEN
#include <qrcodegen/qrcodegen.h>
// The whole input in the best single mode, which is what its call for texts does.
int peer_qrcodegen(const uint8_t *bytes, size_t count) {
    static uint8_t scratch[qrcodegen_BUFFER_LEN_MAX], grid[qrcodegen_BUFFER_LEN_MAX];
    char text[8192];
    memcpy(text, bytes, count);
    text[count] = 0;
    bool done;
    if (strlen(text) == count && (qrcodegen_isNumeric(text) || qrcodegen_isAlphanumeric(text))) {
        done = qrcodegen_encodeText(text, scratch, grid, qrcodegen_Ecc_LOW, 1, 40,
                                    qrcodegen_Mask_AUTO, false);
    } else {
        memcpy(scratch, bytes, count);
        done = qrcodegen_encodeBinary(scratch, count, grid, qrcodegen_Ecc_LOW, 1, 40,
                                      qrcodegen_Mask_AUTO, false);
    }
    return done ? qrcodegen_getSize(grid) : 0;
}
#endif
