// The files of the stored vectors, for both programs in C.
#include <stdio.h>
#include <stdlib.h>

static FILE *vectors(const char *folder, const char *name) {
    char path[4096];
    snprintf(path, sizeof path, "%s/%s", folder, name);
    FILE *file = fopen(path, "r");
    if (!file) perror(path), exit(2);
    return file;
}
