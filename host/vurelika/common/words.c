#include "words.h"

#include <stddef.h>
#include <string.h>

#define COUNT(array) (sizeof(array) / sizeof(array)[0])

struct words words_of(int argc, char **argv)
{
    struct words w = {0};
    const struct {
        const char *name, **value;
    } options[] = {{"--shift", &w.shift}, {"--zoom", &w.zoom}, {"--at", &w.at},
                   {"--order", &w.order}, {"--mode", &w.mode}, {"--fill", &w.fill},
                   {"--coverage", &w.coverage}};
    const struct {
        const char *name;
        int *given;
    } flags[] = {{"--no-prefilter", &w.no_prefilter}, {"--dry-run", &w.dry_run}, {"--force", &w.force}};

    for (int i = 1; i < argc; i++) {
        size_t option = 0, flag = 0;

        while (option < COUNT(options) && strcmp(argv[i], options[option].name) != 0)
            option++;
        while (flag < COUNT(flags) && strcmp(argv[i], flags[flag].name) != 0)
            flag++;
        if (option < COUNT(options))
            *options[option].value = argv[++i]; /* behind the last word stands NULL */
        else if (flag < COUNT(flags))
            *flags[flag].given = 1;
        else
            *(w.input == NULL ? &w.input : &w.output) = argv[i];
    }
    return w;
}
