/* Reads a JSON text, makes the edits of its member "edits" in the array of its member "doc", and prints what came. */
#include <stdio.h>
#include <string.h>
#include "cJSON.h"

static char text[65536];

static void edit(cJSON *array, const cJSON *one)
{
    const cJSON *op = cJSON_GetObjectItemCaseSensitive(one, "op");
    const cJSON *at = cJSON_GetObjectItemCaseSensitive(one, "at");
    cJSON *value = cJSON_Duplicate(cJSON_GetObjectItemCaseSensitive(one, "value"), 1);
    if (cJSON_IsString(op) && cJSON_IsNumber(at)) {
        if (!strcmp(op->valuestring, "insert") && value && cJSON_InsertItemInArray(array, at->valueint, value))
            value = NULL;
        else if (!strcmp(op->valuestring, "replace") && value && cJSON_ReplaceItemInArray(array, at->valueint, value))
            value = NULL;
        else if (!strcmp(op->valuestring, "remove"))
            cJSON_DeleteItemFromArray(array, at->valueint);
    }
    cJSON_Delete(value);
}

int main(void)
{
    cJSON *given, *array, *edits, *one;
    char *out;
    text[fread(text, 1, sizeof text - 1, stdin)] = 0;
    given = cJSON_Parse(text);
    if (!given) {
        printf("no JSON\n");
        return 0;
    }
    array = cJSON_GetObjectItemCaseSensitive(given, "doc");
    edits = cJSON_GetObjectItemCaseSensitive(given, "edits");
    if (cJSON_IsArray(array) && cJSON_IsArray(edits))
        cJSON_ArrayForEach(one, edits)
            edit(array, one);
    out = cJSON_Print(array ? array : given);
    printf("%s\n", out ? out : "no text");
    cJSON_free(out);
    cJSON_Delete(given);
    return 0;
}
