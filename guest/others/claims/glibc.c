// What stands round a test of glibc's: its own driver forks, sets an alarm and waits. This one calls the test, as that one does with --direct.
// With a number as its word it calls it so many times.
#include <stdarg.h>
#include <stdio.h>
#include <stdlib.h>
#include <support/test-driver.h>

const char *test_dir = "/tmp";
unsigned int test_verbose = 0;

int support_report_failure(int status) __attribute__((weak));

int support_test_main(int argc, char **argv, const struct test_config *config)
{
    if (config->prepare_function != NULL)
        config->prepare_function(argc, argv);
    int status = 0;
    for (int times = argc > 1 ? atoi(argv[1]) : 1; times > 0 && status == 0; times--)
        status = config->test_function != NULL ? config->test_function() : config->test_function_argv(argc, argv);
    return support_report_failure != NULL ? support_report_failure(status) : status;
}

// (of glibc's <error.h>)
void error(int status, int number, const char *format, ...)
{
    va_list all;
    va_start(all, format);
    vfprintf(stderr, format, all);
    va_end(all);
    fprintf(stderr, " (%d)\n", number);
    if (status != 0)
        exit(status);
}
