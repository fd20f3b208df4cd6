/* SPDX-License-Identifier: MIT OR Apache-2.0 */
/* Prints the symbol of a text at level L, `#` dark and `.` light:  example TEXT */
#include "sicklespan.h"

#include <stdio.h>
#include <string.h>

int main(int count, char **words) {
    if (count != 2) {
        fputs("usage: example TEXT\n", stderr);
        return 2;
    }
    static uint8_t modules[SICKLESPAN_MAX_SIZE];
    sicklespan_options options = SICKLESPAN_OPTIONS_INIT;
    options.level = SICKLESPAN_LEVEL_L;
    sicklespan_shape shape;
    int32_t status =
        sicklespan_auto(words[1], strlen(words[1]), &options, modules, sizeof modules, &shape);
    if (status != SICKLESPAN_OK) {
        fprintf(stderr, "example: %s\n", sicklespan_status_text(status));
        return 1;
    }
    for (int32_t y = 0; y < shape.width; y++) {
        for (int32_t x = 0; x < shape.width; x++) putchar(modules[y * shape.width + x] ? '#' : '.');
        putchar('\n');
    }
    fprintf(stderr, "version %d, mask %d\n", (int)shape.version, (int)shape.mask);
    return 0;
}
