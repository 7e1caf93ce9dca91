/* fotsgure-openssl: says which provider serves AES to programs, or whether a process has loaded the module, or prints a file of
 * configuration. Its page of the manual is fotsgure-openssl.1. */
#include "command.h"

#include <fotsgure_aes.h>
#include <openssl/crypto.h>
#include <stdio.h>
#include <string.h>

static const char usage[] =
    "usage: OPENSSL_CONF=FILE fotsgure-openssl              which provider serves AES under that file\n"
    "       fotsgure-openssl PID                            whether a process has loaded the module\n"
    "       fotsgure-openssl --configuration MODULE [FILE]  prints a file of configuration that names MODULE, and keeps the settings\n"
    "                                                       of FILE\n"
    "       fotsgure-openssl --help, fotsgure-openssl --version\n";

static int is_number(const char *word)
{
    return *word && strspn(word, "0123456789") == strlen(word) && strlen(word) < 20;
}

static enum exit_status run(int count, char **words)
{
    if (count == 1)
        return of_this_environment();
    if (count == 2 && strcmp(words[1], "--help") == 0)
        return fputs(usage, stdout), SERVED;
    if (count == 2 && strcmp(words[1], "--version") == 0)
        return puts("fotsgure-openssl " FOTSGURE_AES_VERSION_TEXT), SERVED;
    if (count == 2 && is_number(words[1]))
        return of_process(words[1]);
    if ((count == 3 || count == 4) && strcmp(words[1], "--configuration") == 0)
        return print_configuration(words[2], words[3]);
    return fputs(usage, stderr), UNKNOWN;
}

int main(int count, char **words)
{
    enum exit_status status = run(count, words);
    if (fflush(stdout) != 0 || ferror(stdout)) {
        perror("fotsgure-openssl: standard output");
        return UNKNOWN;
    }
    return (int)status;
}
