/* The parts of the command fotsgure-openssl. The first three return the exit status of the command. */
#ifndef FOTSGURE_COMMAND_H
#define FOTSGURE_COMMAND_H

#include <openssl/conf.h>

#define MODULE_NAME "fotsgure.so"

enum exit_status {
    SERVED = 0,     /* every algorithm comes from the module; or the process has loaded it */
    NOT_SERVED = 1, /* some come from elsewhere; or the process hasn't loaded it */
    UNKNOWN = 2,    /* nothing could be found out, or printed */
    BROKEN = 3,     /* programs find no hash or no random numbers */
    REPLACED = 4    /* the process has loaded a module whose file is gone by now */
};

enum exit_status of_this_environment(void);
enum exit_status of_process(const char *process);
enum exit_status print_configuration(const char *module, const char *file); /* file: NULL, or another one to build on */

/* Why programs don't get AES from the module, in a line. */
void print_reason(void);
/* A value by its name in this section alone. NCONF_get_string would look into the default section too. */
const char *value_of(const CONF *conf, const char *section, const char *name, const char *otherwise);

#endif
