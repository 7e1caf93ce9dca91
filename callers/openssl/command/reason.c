/* Says why programs don't get AES from the module. It opens what OpenSSL opens for them, and repeats OpenSSL's own error. */
#define _GNU_SOURCE
#include "command.h"

#include <openssl/err.h>
#include <openssl/evp.h>
#include <openssl/provider.h>
#include <stdio.h>
#include <stdlib.h>
#include <string.h>
#include <sys/statvfs.h>

#ifndef ST_NOEXEC /* on macOS */
#define ST_NOEXEC 0
#endif

/* Prints the first file that OpenSSL couldn't open, as in its error "calling stat(PATH)". Returns 0 if there was none. */
static int print_unopened(const char *file)
{
    const char *data;
    int flags;
    unsigned long error;
    while ((error = ERR_get_error_all(NULL, NULL, NULL, &data, &flags)) != 0) {
        char path[4096];
        if (ERR_GET_LIB(error) != ERR_LIB_SYS || sscanf(data, "calling %*[a-z](%4095[^,)]", path) != 1)
            continue;
        printf("%s", path);
        if (strcmp(path, file) != 0)
            printf(", which %s includes", file);
        printf(": %s\n", strerror(ERR_GET_REASON(error)));
        return 1;
    }
    return 0;
}

/* The path of the module by the file of configuration, as OpenSSL finds it; or NULL if the file activates no such provider. */
static const char *module_by(const CONF *conf)
{
    const char *init = value_of(conf, "default", "openssl_conf", "");
    const char *section = value_of(conf, value_of(conf, init, "providers", ""), "fotsgure", "");
    return value_of(conf, section, "activate", NULL) ? value_of(conf, section, "module", "fotsgure") : NULL;
}

static int is_processor_served(void)
{
#ifdef __x86_64__
    return __builtin_cpu_supports("ssse3") && __builtin_cpu_supports("sse4.2");
#else
    return 1;
#endif
}

/* Loads the module, and prints what stops it. If nothing does, OpenSSL stopped at an earlier line of the file. */
static void print_unloaded(OSSL_LIB_CTX *library, const char *module, const char *file)
{
    const char *data = "";
    int flags;
    struct statvfs mount;
    ERR_clear_error();
    if (OSSL_PROVIDER_load(library, module)) {
        if (CONF_modules_load_file_ex(library, file, NULL, CONF_MFLAGS_DEFAULT_SECTION) <= 0)
            ERR_peek_last_error_all(NULL, NULL, NULL, &data, &flags);
        printf("OpenSSL reads %s and %s%s\n", file, *data ? "stops before the module: " : "doesn't load the module", data);
    } else if (!is_processor_served()) {
        printf("the processor lacks SSSE3 or SSE4.2\n");
    } else if (statvfs(module, &mount) == 0 && mount.f_flag & ST_NOEXEC) {
        printf("%s is on a file system that is mounted with noexec\n", module);
    } else {
        ERR_get_error_all(NULL, NULL, NULL, &data, &flags);
        const char *of_loader = strstr(data, "): "); /* as "filename(PATH): PATH: cannot open .." */
        printf("%s\n", of_loader ? of_loader + 3 : module);
    }
}

static void print_why_not_loaded(OSSL_LIB_CTX *library, const char *file)
{
    long line = 0;
    CONF *conf = NCONF_new(NULL);
    ERR_clear_error();
    int is_read = conf && NCONF_load(conf, file, &line) > 0;
    const char *module = is_read ? module_by(conf) : NULL;
    if (module)
        print_unloaded(library, module, file);
    else if (line > 0)
        printf("%s: line %ld isn't understood\n", file, line);
    else if (!print_unopened(file))
        printf("%s activates no provider fotsgure\n", file);
    NCONF_free(conf);
}

void print_reason(void)
{
    const char *setting = getenv("OPENSSL_CONF");
    char *file = CONF_get1_default_config_file();
    OSSL_LIB_CTX *library = OSSL_LIB_CTX_new();
    if (OSSL_PROVIDER_available(NULL, "fotsgure")) {
        printf("%s\n", EVP_default_properties_is_fips_enabled(NULL)
                ? "the configuration demands fips=yes, which the module doesn't have"
                : "it is loaded, but the configuration doesn't prefer it: default_properties = ?provider=fotsgure does");
    } else if (setting && !*setting) {
        printf("OPENSSL_CONF names no file\n");
    } else if (file && library) {
        printf("%s", setting ? "" : "OPENSSL_CONF isn't set, and ");
        print_why_not_loaded(library, file);
    }
    OSSL_LIB_CTX_free(library);
    OPENSSL_free(file);
}
