#include "peers.h"

#include <gcrypt.h>
#include <openssl/crypto.h>
#include <openssl/err.h>
#include <openssl/evp.h>
#include <openssl/proverr.h>
#include <stdio.h>
#include <stdlib.h>

/* libgcrypt: all five modes and the block. */

static const char *gcrypt_version(void)
{
    return gcry_check_version(NULL);
}

static int gcrypt_mode(int mode)
{
    static const int modes[6] = {GCRY_CIPHER_MODE_CFB, GCRY_CIPHER_MODE_OFB, GCRY_CIPHER_MODE_CTR,
        GCRY_CIPHER_MODE_CBC, GCRY_CIPHER_MODE_GCM, GCRY_CIPHER_MODE_ECB};
    return modes[mode];
}

static int gcrypt_start(gcry_cipher_hd_t h, int mode, const uint8_t *key, struct field iv)
{
    if (gcry_cipher_setkey(h, key, 16)) {
        return 0;
    }
    switch (mode) {
    case BLOCK:
        return 1;
    case CTR:
        return !gcry_cipher_setctr(h, iv.bytes, iv.length);
    default:
        return !gcry_cipher_setiv(h, iv.bytes, iv.length);
    }
}

static enum verdict gcrypt_gcm(gcry_cipher_hd_t h, int direction, struct field label, struct field data, uint8_t *out)
{
    size_t text = direction == ENCRYPT ? data.length : data.length - 16;
    gcry_error_t error;
    if (gcry_cipher_authenticate(h, label.bytes, label.length) || gcry_cipher_final(h)) {
        return CANNOT;
    }
    if (direction == ENCRYPT) {
        error = gcry_cipher_encrypt(h, out, text, data.bytes, text);
        return error || gcry_cipher_gettag(h, out + text, 16) ? CANNOT : DONE;
    }
    if (gcry_cipher_decrypt(h, out, text, data.bytes, text)) {
        return CANNOT;
    }
    error = gcry_cipher_checktag(h, data.bytes + text, 16);
    return gcry_err_code(error) == GPG_ERR_CHECKSUM ? BAD_TAG : error ? CANNOT : DONE;
}

static enum verdict gcrypt_run(int mode, int direction, const uint8_t *key, struct field iv,
    struct field label, struct field data, uint8_t *out)
{
    gcry_cipher_hd_t h;
    enum verdict verdict = CANNOT;
    if (gcry_cipher_open(&h, GCRY_CIPHER_SM4, gcrypt_mode(mode), 0)) {
        return CANNOT;
    }
    if (gcrypt_start(h, mode, key, iv)) {
        if (mode == GCM) {
            verdict = gcrypt_gcm(h, direction, label, data, out);
        } else if (direction == ENCRYPT) {
            verdict = gcry_cipher_encrypt(h, out, data.length, data.bytes, data.length) ? CANNOT : DONE;
        } else {
            verdict = gcry_cipher_decrypt(h, out, data.length, data.bytes, data.length) ? CANNOT : DONE;
        }
    }
    gcry_cipher_close(h);
    return verdict;
}

/* OpenSSL 3.0: no SM4 in Gcm. */

static const char *openssl_version(void)
{
    return OpenSSL_version(OPENSSL_VERSION_STRING);
}

static const EVP_CIPHER *openssl_mode(int mode)
{
    switch (mode) {
    case CFB:
        return EVP_sm4_cfb128();
    case OFB:
        return EVP_sm4_ofb();
    case CTR:
        return EVP_sm4_ctr();
    case CBC:
        return EVP_sm4_cbc();
    case BLOCK:
        return EVP_sm4_ecb();
    default:
        return NULL;
    }
}

static enum verdict openssl_run(int mode, int direction, const uint8_t *key, struct field iv,
    struct field label, struct field data, uint8_t *out)
{
    const EVP_CIPHER *cipher = openssl_mode(mode);
    EVP_CIPHER_CTX *context;
    int first = 0, last = 0, done;
    (void)label;
    if (cipher == NULL || (context = EVP_CIPHER_CTX_new()) == NULL) {
        return CANNOT;
    }
    done = EVP_CipherInit_ex(context, cipher, NULL, key, iv.bytes, direction == ENCRYPT) == 1
        && EVP_CIPHER_CTX_set_padding(context, 0) == 1
        && EVP_CipherUpdate(context, out, &first, data.bytes, (int)data.length) == 1
        && EVP_CipherFinal_ex(context, out + first, &last) == 1
        && (size_t)(first + last) == data.length;
    EVP_CIPHER_CTX_free(context);
    return done ? DONE : CANNOT;
}

enum verdict openssl_unpadded(const uint8_t *key, struct field iv, struct field data, uint8_t *out, size_t *length)
{
    EVP_CIPHER_CTX *context = EVP_CIPHER_CTX_new();
    int first = 0, last = 0, taken, ends;
    unsigned long error;
    if (context == NULL) {
        return CANNOT;
    }
    ERR_clear_error();
    taken = EVP_DecryptInit_ex(context, openssl_mode(CBC), NULL, key, iv.bytes) == 1
        && EVP_CIPHER_CTX_set_padding(context, 1) == 1
        && EVP_DecryptUpdate(context, out, &first, data.bytes, (int)data.length) == 1;
    /* the last block is held back until here */
    ends = taken && EVP_DecryptFinal_ex(context, out + first, &last) == 1;
    error = ERR_peek_error();
    EVP_CIPHER_CTX_free(context);
    *length = (size_t)(first + last);
    if (ends) {
        return DONE;
    }
    return taken && ERR_GET_LIB(error) == ERR_LIB_PROV && ERR_GET_REASON(error) == PROV_R_BAD_DECRYPT ? BAD_PADDING
                                                                                                      : CANNOT;
}

void start_peers(void)
{
    if (gcry_check_version("1.9.0") == NULL) {
        fprintf(stderr, "libgcrypt is older than 1.9, the first with SM4\n");
        exit(2);
    }
    gcry_control(GCRYCTL_DISABLE_SECMEM, 0);
    gcry_control(GCRYCTL_INITIALIZATION_FINISHED, 0);
}

const struct peer peers[2] = {
    {"libgcrypt", gcrypt_version, gcrypt_run},
    {"OpenSSL", openssl_version, openssl_run},
};
