/* Prints a file of configuration that gives programs AES from the module, and keeps the settings of another file. libcrypto reads
 * the other file. So the files that it includes count, and its variables and quotes too. */
#include "command.h"

#include <openssl/evp.h>
#include <openssl/provider.h>
#include <stdio.h>
#include <string.h>

/* The sections by the names that the other file has for them, or else by ours. */
struct names {
    const char *init, *providers, *of_default, *algorithms;
    const char *properties; /* that the other file asks for, or "" */
    int opens_init;         /* no other file names a section for libcrypto */
    int activates_default;  /* programs have the provider default under the other file, and are to keep it */
};

#define PREFERENCE "?provider=fotsgure"

/* What can't be written into a file of configuration as it is. */
#define SPECIAL "#$\\\"'"

/* Programs that read the file have folders of their own. */
static int is_whole(const char *path)
{
    if (*path == '/' && !strpbrk(path, SPECIAL))
        return 1;
    fprintf(stderr, "%s: a path has to begin with /, and have none of the characters %s\n", path, SPECIAL);
    return 0;
}

const char *value_of(const CONF *conf, const char *section, const char *name, const char *otherwise)
{
    const STACK_OF(CONF_VALUE) *values = NCONF_get_section(conf, section);
    for (int i = sk_CONF_VALUE_num(values) - 1; i >= 0; i--) {
        const CONF_VALUE *value = sk_CONF_VALUE_value(values, i);
        if (strcmp(value->name, name) == 0)
            return value->value;
    }
    return otherwise;
}

/* What programs have under the other file. */
static int keeps_its_settings(struct names *names, const char *file)
{
    OSSL_LIB_CTX *library = OSSL_LIB_CTX_new();
    if (!library)
        return 0;
    /* (An error in it ends nothing, as in programs.) */
    CONF_modules_load_file_ex(library, file, NULL, CONF_MFLAGS_DEFAULT_SECTION | CONF_MFLAGS_IGNORE_RETURN_CODES);
    names->activates_default = OSSL_PROVIDER_available(library, "default");
    int fips = EVP_default_properties_is_fips_enabled(library);
    char properties[2000];
    snprintf(properties, sizeof properties, "%s%s" PREFERENCE, names->properties, *names->properties ? "," : "");
    int is_allowed = EVP_set_default_properties(library, properties);
    OSSL_LIB_CTX_free(library);
    if (fips)
        fprintf(stderr, "%s demands fips=yes: the module doesn't have that property, since nobody has certified it\n", file);
    else if (strpbrk(names->properties, SPECIAL))
        fprintf(stderr, "%s has default_properties with quotes or variables: %s\n", file, names->properties);
    else if (!is_allowed)
        fprintf(stderr, "%s: after default_properties = %s OpenSSL doesn't allow " PREFERENCE " (it allows each name once)\n", file,
            names->properties);
    else
        return 1;
    return 0;
}

static void print(const char *module, const char *file, const struct names *names)
{
    printf("# Every program that reads this file gets AES from the provider: OPENSSL_CONF=/path/of/this/file PROGRAM\n"
        "# '?' prefers fotsgure. What fotsgure doesn't have comes from OpenSSL's own provider.\n");
    if (names->opens_init)
        printf("openssl_conf = %s\n", names->init);
    /* The other file comes first. Then its sections are opened once more: if a name is repeated, its last value is used. */
    if (file)
        printf(".include %s\n", file);
    printf("[%s]\nproviders = %s\nalg_section = %s\n", names->init, names->providers, names->algorithms);
    printf("[%s]\n", names->providers);
    if (names->activates_default)
        printf("default = %s\n", names->of_default);
    printf("fotsgure = fotsgure_provider\n");
    if (names->activates_default)
        printf("[%s]\nactivate = 1\n", names->of_default);
    printf("[fotsgure_provider]\nmodule = %s\nactivate = 1\n", module);
    printf("[%s]\ndefault_properties = %s%s" PREFERENCE "\n", names->algorithms, names->properties,
        *names->properties ? "," : "");
}

enum exit_status print_configuration(const char *module, const char *file)
{
    struct names names = {"fotsgure_init", "fotsgure_providers", "fotsgure_default", "fotsgure_algorithms", "", 1, 1};
    enum exit_status status = UNKNOWN;
    long line = 0;
    if (!is_whole(module) || (file && !is_whole(file)))
        return UNKNOWN;
    CONF *conf = NCONF_new(NULL);
    if (conf && file && NCONF_load(conf, file, &line) <= 0) {
        fprintf(stderr, line > 0 ? "%s: line %ld isn't understood\n" : "%s can't be read\n", file, line);
    } else if (conf) {
        const char *init = value_of(conf, "default", "openssl_conf", NULL);
        names.opens_init = !init;
        names.init = init ? init : names.init;
        names.providers = value_of(conf, names.init, "providers", names.providers);
        names.of_default = value_of(conf, names.providers, "default", names.of_default);
        names.algorithms = value_of(conf, names.init, "alg_section", names.algorithms);
        names.properties = value_of(conf, names.algorithms, "default_properties", names.properties);
        if (!file || keeps_its_settings(&names, file)) {
            print(module, file, &names);
            status = SERVED;
        }
    }
    NCONF_free(conf);
    return status;
}
