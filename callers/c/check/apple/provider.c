/* Runs a test of the module for OpenSSL whose `main` is called of_check, with the module in the same program: Linux's libcrypto can't load
 * one for macOS. */
#include <openssl/core_dispatch.h>
#include <openssl/provider.h>

int of_check(int count, char **words);
OSSL_provider_init_fn OSSL_provider_init;

int main(int count, char **words)
{
    __builtin_cpu_init(); /* the loader runs no constructors */
    return OSSL_PROVIDER_add_builtin(NULL, "fotsgure", OSSL_provider_init) ? of_check(count, words) : 1;
}
