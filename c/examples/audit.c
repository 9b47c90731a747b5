/* Says whether the book in a file holds: its log explains its tables. */
#include <inttypes.h>
#include <occ.h>
#include <stdio.h>
#include <stdlib.h>

int main(int words, char **word) {
    FILE *file = words == 2 ? fopen(word[1], "rb") : stdin;
    char *text = NULL;
    size_t size = 0, room = 0, part = 1;
    uint64_t line = 0;
    int holds = 0;
    if (!file)
        return perror(word[1]), 2;
    while (part) {
        if (size == room && !(text = realloc(text, room = room * 2 + 65536)))
            return 2;
        size += part = fread(text + size, 1, room - size, file);
    }
    int code = occ_audit(text, size, &holds, &line);
    free(text);
    if (code)
        return fprintf(stderr, "line %" PRIu64 ": %s\n", line, occ_strerror(code)), 2;
    printf("audit %s\n", holds ? "yes" : "no");
    return !holds;
}
