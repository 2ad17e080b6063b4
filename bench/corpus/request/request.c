#include <ctype.h>
#include <stdio.h>
#include <stdlib.h>
#include <string.h>

#define MAX_LINE 80
#define MAX_HEADERS 6
#define MAX_NAME 16
#define MAX_VALUE 24
#define MAX_BODY 64

/* Reads requests as a server would: a line with method, path and version, headers,
 * an empty line, and a body of so many bytes as its length says, or in chunks.
 * Each is answered by a line with its status. */

typedef enum { GET, HEAD, POST, PUT, METHODS } method;

typedef struct {
    char name[MAX_NAME];
    char value[MAX_VALUE];
} header;

typedef struct {
    method how;
    char path[MAX_LINE];
    char query[MAX_LINE];
    int version;
    header headers[MAX_HEADERS];
    int count;
    char body[MAX_BODY + 1];
    int length;
} request;

static int requests;
static int answered[6];

static const char *method_name(method m)
{
    switch (m) {
    case GET:
        return "GET";
    case HEAD:
        return "HEAD";
    case POST:
        return "POST";
    case PUT:
        return "PUT";
    default:
        return "?";
    }
}

static int read_line(char *line, int size)
{
    int n = 0;
    int c = getchar();
    if (c == EOF)
        return -1;
    while (c != EOF && c != '\n') {
        if (n < size - 1 && c != '\r')
            line[n++] = (char)c;
        c = getchar();
    }
    line[n] = '\0';
    return n;
}

static int hex(int c)
{
    if (isdigit(c))
        return c - '0';
    c = tolower(c);
    return c >= 'a' && c <= 'f' ? c - 'a' + 10 : -1;
}

/* Replaces %41 and + in a text; answers whether it was well formed. */
static int decode(char *text)
{
    char *to = text;
    while (*text) {
        if (*text == '%') {
            int high, low;
            high = hex((unsigned char)text[1]);
            low = high < 0 ? -1 : hex((unsigned char)text[2]);
            if (low < 0)
                return 0;
            *to++ = (char)(16 * high + low);
            text += 3;
        } else {
            *to++ = *text == '+' ? ' ' : *text;
            text++;
        }
    }
    *to = '\0';
    return 1;
}

static int same_name(const char *a, const char *b)
{
    while (*a && tolower((unsigned char)*a) == tolower((unsigned char)*b)) {
        a++;
        b++;
    }
    return *a == '\0' && *b == '\0';
}

static const char *find(const request *r, const char *name)
{
    int i;
    for (i = 0; i < r->count; i++)
        if (same_name(r->headers[i].name, name))
            return r->headers[i].value;
    return NULL;
}

static int parse_first(request *r, char *line)
{
    char *path = strchr(line, ' ');
    char *version;
    char *query;
    if (path == NULL)
        return 400;
    *path++ = '\0';
    version = strchr(path, ' ');
    if (version == NULL)
        return 400;
    *version++ = '\0';
    for (r->how = GET; r->how < METHODS; r->how++)
        if (strcmp(line, method_name(r->how)) == 0)
            break;
    if (r->how == METHODS)
        return 501;
    if (strcmp(version, "HTTP/1.1") == 0)
        r->version = 1;
    else if (strcmp(version, "HTTP/1.0") == 0)
        r->version = 0;
    else
        return 505;
    query = strchr(path, '?');
    if (query != NULL)
        *query++ = '\0';
    strcpy(r->path, path);
    strcpy(r->query, query != NULL ? query : "");
    return *path == '/' && decode(r->path) ? 0 : 400;
}

static int parse_header(request *r, char *line)
{
    char *colon = strchr(line, ':');
    char *end;
    header h;
    if (colon == NULL || colon == line)
        return 400;
    *colon++ = '\0';
    while (*colon == ' ')
        colon++;
    end = colon + strlen(colon);
    while (end > colon && end[-1] == ' ')
        *--end = '\0';
    if (strlen(line) >= MAX_NAME || strlen(colon) >= MAX_VALUE)
        return 431;
    if (r->count == MAX_HEADERS)
        return 431;
    strcpy(h.name, line);
    strcpy(h.value, colon);
    r->headers[r->count++] = h;
    return 0;
}

static int read_bytes(request *r, int bytes)
{
    while (bytes-- > 0) {
        int c = getchar();
        if (c == EOF)
            return 400;
        if (r->length < MAX_BODY)
            r->body[r->length] = (char)c;
        r->length++;
    }
    return 0;
}

static int read_chunks(request *r)
{
    char line[MAX_LINE];
    for (;;) {
        int size = 0;
        int i;
        if (read_line(line, MAX_LINE) <= 0)
            return 400;
        for (i = 0; line[i] && line[i] != ';'; i++) {
            if (hex((unsigned char)line[i]) < 0 || size > 1000)
                return 400;
            size = 16 * size + hex((unsigned char)line[i]);
        }
        if (size == 0)
            break;
        if (read_bytes(r, size) != 0 || getchar() != '\n')
            return 400;
    }
    read_line(line, MAX_LINE);
    return 0;
}

static int read_body(request *r)
{
    const char *length = find(r, "Content-Length");
    const char *coding = find(r, "Transfer-Encoding");
    int result = 0;
    r->length = 0;
    if (coding != NULL && same_name(coding, "chunked"))
        result = read_chunks(r);
    else if (length != NULL) {
        int n = 0;
        if (!isdigit((unsigned char)*length))
            return 400;
        while (isdigit((unsigned char)*length) && n < 10000)
            n = 10 * n + (*length++ - '0');
        if (*length)
            return 400;
        result = read_bytes(r, n);
    } else if (r->how == POST || r->how == PUT)
        return 411;
    if (result == 0 && r->length > MAX_BODY)
        return 413;
    r->body[r->length < MAX_BODY ? r->length : MAX_BODY] = '\0';
    return result;
}

static int read_request(request *r)
{
    char line[MAX_LINE];
    int status;
    int n;
    do
        n = read_line(line, MAX_LINE);
    while (n == 0);
    if (n < 0)
        return -1;
    memset(r, 0, sizeof *r);
    status = parse_first(r, line);
    while ((n = read_line(line, MAX_LINE)) > 0)
        if (status == 0)
            status = parse_header(r, line);
    if (status == 0 && r->version == 1 && find(r, "Host") == NULL)
        status = 400;
    if (status == 0)
        status = read_body(r);
    return status == 0 ? 200 : status;
}

static void answer(const request *r, int status)
{
    printf("%d", status);
    if (status == 200) {
        printf(" %s %s", method_name(r->how), r->path);
        if (r->query[0])
            printf(" ?%s", r->query);
        printf(" %d headers, %d bytes", r->count, r->length);
        if (r->length > 0)
            printf(": %s", r->body);
    }
    putchar('\n');
    answered[status / 100]++;
}

int main(void)
{
    request r;
    int status;
    while ((status = read_request(&r)) >= 0) {
        requests++;
        answer(&r, status);
    }
    printf("%d requests, %d good\n", requests, answered[2]);
    return 0;
}
