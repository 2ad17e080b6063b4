/* Reads a JSON text, applies the JSON Patch (RFC 6902) of its member "patch" to its member "doc", and prints what came. */
#include <stdio.h>
#include "cJSON.h"
#include "cJSON_Utils.h"

static char text[65536];

int main(void)
{
    cJSON *given, *document, *patch;
    text[fread(text, 1, sizeof text - 1, stdin)] = 0;
    given = cJSON_Parse(text);
    document = cJSON_GetObjectItemCaseSensitive(given, "doc");
    patch = cJSON_GetObjectItemCaseSensitive(given, "patch");
    if (document && patch) {
        int status = cJSONUtils_ApplyPatchesCaseSensitive(document, patch);
        char *out = cJSON_PrintUnformatted(document);
        printf("%d %s\n", status, out ? out : "no text");
        cJSON_free(out);
    } else {
        printf("no document and patch\n");
    }
    cJSON_Delete(given);
    return 0;
}
