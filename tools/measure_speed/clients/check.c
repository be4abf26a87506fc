/* Checks lines `name:hash:password` as mkpasswd --check does, but with a library:
 *
 *     check libmkpasswd|libxcrypt
 */
#define _GNU_SOURCE /* for crypt_rn */
#include <crypt.h>
#include <mkpasswd.h>
#include <stdio.h>

static bool matches_by_libmkpasswd(const char *password, const char *hash)
{
    return mkpasswd_verify(mkpasswd_password(password), mkpasswd_field(hash), UINT64_MAX, NULL);
}

static bool matches_by_libxcrypt(const char *password, const char *hash)
{
    static struct crypt_data data;
    const char *result = crypt_rn(password, hash, &data, sizeof data);

    return result && strcmp(result, hash) == 0;
}

int main(int argc, char **argv)
{
    bool is_ours = argc == 2 && strcmp(argv[1], "libmkpasswd") == 0;
    char name[512], hash[512], password[1025];

    while (scanf("%511[^:]:%511[^:]:%1024[^\n]\n", name, hash, password) == 3) {
        bool matches = is_ours ? matches_by_libmkpasswd(password, hash)
                               : matches_by_libxcrypt(password, hash);

        printf("%s:%s\n", name, matches ? "ok" : "no");
    }
    return 0;
}
