/* The declarations of libqrencode 4.1.1 that tools/bench/peers.c uses, for machines without it. */
typedef enum { QR_ECLEVEL_L = 0 } QRecLevel;
typedef enum { QR_MODE_8 = 2, QR_MODE_KANJI = 3 } QRencodeMode;
typedef struct {
    int version, width;
    unsigned char *data;
} QRcode;
QRcode *QRcode_encodeData(int size, const unsigned char *data, int version, QRecLevel level);
QRcode *QRcode_encodeString(const char *string, int version, QRecLevel level, QRencodeMode hint,
                            int casesensitive);
void QRcode_free(QRcode *qrcode);
