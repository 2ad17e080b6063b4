/* Reads a JSON text that has no NUL behind it, and prints it. */
#include <stdio.h>
#include <stdlib.h>
#include <string.h>
#include "cJSON.h"

static char text[65536];

int main(void)
{
    size_t size = fread(text, 1, sizeof text, stdin);
    char *copy = malloc(size + !size), *out;
    cJSON *given;
    memcpy(copy, text, size);
    given = cJSON_ParseWithLength(copy, size);
    out = given ? cJSON_PrintUnformatted(given) : NULL;
    printf("%s\n", out ? out : "no JSON");
    cJSON_free(out);
    cJSON_Delete(given);
    free(copy);
    return 0;
}
