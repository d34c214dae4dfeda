/* SM4 as Debian's libraries have it, behind one shape. Cbc is of whole blocks, without padding; in Gcm
 * the tag stands after the ciphertext; a single block is one block of Ecb. */
#ifndef PEERS_H
#define PEERS_H

#include "records.h"

enum verdict { DONE, BAD_TAG, BAD_PADDING, CANNOT };

struct peer {
    const char *name;
    const char *(*version)(void);
    /* Encrypts or decrypts data into out, which has room for 16 bytes more than data. The key has 16 bytes; so
     * has the IV, or 12 in Gcm. */
    enum verdict (*run)(int mode, int direction, const uint8_t *key, struct field iv,
        struct field label, struct field data, uint8_t *out);
};

/* Gets the libraries ready; ends the program with a message where that fails. */
void start_peers(void);

extern const struct peer peers[2];

/* OpenSSL's decryption in Cbc with a check of the padding that is its own. It gives the length without it; out has
 * room for 16 bytes more than data. Key and IV have 16 bytes. */
enum verdict openssl_unpadded(const uint8_t *key, struct field iv, struct field data, uint8_t *out, size_t *length);

#endif
