/* Derives a key of 32 bytes with scrypt and prints it in hexadecimal, COUNT times:
 *
 *     derive openssl|libsodium LOG_N R P SALT PASSWORD COUNT
 */
#include <openssl/evp.h>
#include <sodium.h>
#include <stdbool.h>
#include <stdint.h>
#include <stdio.h>
#include <stdlib.h>
#include <string.h>

#define KEY_LENGTH 32

struct scrypt {
    uint64_t n;
    uint32_t r, p;
    const char *salt, *password;
};

static bool derive_by_openssl(const struct scrypt *scrypt, unsigned char *key)
{
    return EVP_PBE_scrypt(scrypt->password, strlen(scrypt->password),
               (const unsigned char *)scrypt->salt, strlen(scrypt->salt), scrypt->n, scrypt->r,
               scrypt->p, UINT64_MAX, key, KEY_LENGTH)
        == 1;
}

static bool derive_by_libsodium(const struct scrypt *scrypt, unsigned char *key)
{
    return crypto_pwhash_scryptsalsa208sha256_ll((const uint8_t *)scrypt->password,
               strlen(scrypt->password), (const uint8_t *)scrypt->salt, strlen(scrypt->salt),
               scrypt->n, scrypt->r, scrypt->p, key, KEY_LENGTH)
        == 0;
}

static uint32_t number_of(const char *text)
{
    return (uint32_t)strtoul(text, NULL, 10);
}

static void print_key(const unsigned char *key)
{
    for (int place = 0; place < KEY_LENGTH; place++)
        printf("%02x", key[place]);
    putchar('\n');
}

int main(int argc, char **argv)
{
    unsigned char key[KEY_LENGTH];
    struct scrypt scrypt;
    bool is_openssl;
    uint32_t count;

    if (argc != 8 || sodium_init() < 0)
        return 2;
    is_openssl = strcmp(argv[1], "openssl") == 0;
    scrypt.n = UINT64_C(1) << number_of(argv[2]);
    scrypt.r = number_of(argv[3]);
    scrypt.p = number_of(argv[4]);
    scrypt.salt = argv[5];
    scrypt.password = argv[6];
    count = number_of(argv[7]);
    for (uint32_t number = 0; number < count; number++) {
        bool is_derived = is_openssl ? derive_by_openssl(&scrypt, key)
                                     : derive_by_libsodium(&scrypt, key);

        if (!is_derived)
            return 1;
        print_key(key);
    }
    return 0;
}
