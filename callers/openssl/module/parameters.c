/* Parameters (OSSL_PARAM(3)) and errors, without libcrypto. */
#include "provider.h"

#include <openssl/err.h>
#include <stdarg.h>

int fail_at(const struct context *c, const char *file, int line, const char *function, int reason, ...)
{
    const struct provider *provider = c->provider;
    if (provider->new_error && provider->set_error_debug && provider->vset_error) {
        va_list none;
        va_start(none, reason);
        provider->new_error(provider->handle);
        provider->set_error_debug(provider->handle, file, line, function);
        provider->vset_error(provider->handle, (uint32_t)ERR_PACK(ERR_LIB_PROV, 0, reason), NULL, none);
        va_end(none);
    }
    return 0;
}

/* Numbers have 4 or 8 bytes, the lowest first, as on every processor of the library. */
static int is_number(const OSSL_PARAM *param)
{
    return (param->data_type == OSSL_PARAM_UNSIGNED_INTEGER || param->data_type == OSSL_PARAM_INTEGER) &&
        (!param->data || param->data_size == sizeof(uint32_t) || param->data_size == sizeof(size_t));
}

static int put(OSSL_PARAM *param, const void *bytes, size_t length)
{
    if (param->data)
        memcpy(param->data, bytes, length);
    param->return_size = length;
    return 1;
}

int put_number(OSSL_PARAM *params, const char *name, size_t value)
{
    OSSL_PARAM *param = find(params, name);
    return !param || (is_number(param) && put(param, &value, param->data ? param->data_size : sizeof value));
}

int put_bytes(OSSL_PARAM *params, const char *name, const void *bytes, size_t length)
{
    OSSL_PARAM *param = find(params, name);
    if (param && (param->data_type == OSSL_PARAM_OCTET_PTR || param->data_type == OSSL_PARAM_UTF8_PTR)) {
        memcpy(param->data, &bytes, sizeof bytes);
        param->return_size = length;
        return 1;
    }
    return !param || (param->data_type == OSSL_PARAM_OCTET_STRING && (!param->data || param->data_size >= length) &&
        put(param, bytes, length));
}

int get_number(const OSSL_PARAM *params, const char *name, size_t *value)
{
    const OSSL_PARAM *param = find(params, name);
    if (!param)
        return 1;
    if (!is_number(param) || !param->data)
        return 0;
    *value = 0;
    memcpy(value, param->data, param->data_size);
    return 1;
}
