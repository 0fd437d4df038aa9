/* The work of `lines_demo threads` with no publisher: one thread reads lines `SOURCE TEXT` from standard input, copies each source's
   texts, source after source, to a list of each subscriber, and writes the same report. It checks nothing.
   Usage: copy_lines NAME.. */
#include <stdio.h>
#include <stdlib.h>
#include <string.h>

#define SOURCES 16

struct text {
    unsigned source;
    size_t size;
    char *bytes;
};

static void *need(void *block) {
    if (!block) exit(1);
    return block;
}

int main(int count, char **names) {
    size_t size = 0, room = 1 << 20, lines = 0;
    char *input = need(malloc(room));
    for (size_t got; (got = fread(input + size, 1, room - size, stdin)) > 0;) {
        size += got;
        if (size == room) input = need(realloc(input, room *= 2));
    }
    for (size_t at = 0; at < size; at++) lines += input[at] == '\n';
    struct text **lists = need(calloc(count, sizeof *lists));
    size_t *told = need(calloc(count, sizeof *told));
    for (int k = 1; k < count; k++) lists[k] = need(malloc((lines + 1) * sizeof **lists));
    for (unsigned source = 0; source < SOURCES; source++) {
        for (char *line = input, *end; line < input + size; line = end + 1) {
            end = memchr(line, '\n', input + size - line);
            char *text;
            if (strtoul(line, &text, 10) != source) continue;
            for (int k = 1; k < count; k++) {
                struct text *place = &lists[k][told[k]++];
                *place = (struct text){source, end - text - 1, need(malloc(end - text))};
                memcpy(place->bytes, text + 1, place->size);
            }
        }
    }
    for (int k = 1; k < count; k++) {
        for (size_t i = 0; i < told[k]; i++) {
            printf("%s %u ", names[k], lists[k][i].source);
            fwrite(lists[k][i].bytes, 1, lists[k][i].size, stdout);
            putchar('\n');
        }
        printf("%s complete %zu\n", names[k], told[k]);
    }
    printf("drained 1\n");
    return ferror(stdout) != 0;
}
