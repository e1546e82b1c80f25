// The plain loop that play-net is measured against: the same netlist as arrays, the same levels, the same text of drives.
// usage: limit ARRAYS LEVELS > DRIVES; says the seconds of the loop alone on standard error.
#include <stdio.h>
#include <stdlib.h>
#include <time.h>

struct cell { int carry, table, in[4], out; };

int main(int argc, char **argv) {
    FILE *f = fopen(argv[1], "r"), *g = fopen(argv[2], "r");
    int names, inputs, flops, cells, outputs;
    if (argc != 3 || !f || !g || fscanf(f, "%d %d %d %d %d", &names, &inputs, &flops, &cells, &outputs) != 5) return 2;
    struct cell *c = malloc(cells * sizeof *c);
    int *data = malloc(flops * sizeof *data), *shown = malloc(outputs * sizeof *shown);
    for (int k = 0; k < cells; k++)
        if (fscanf(f, "%d %d %d %d %d %d %d", &c[k].carry, &c[k].table, &c[k].in[0], &c[k].in[1], &c[k].in[2], &c[k].in[3], &c[k].out) != 7) return 2;
    for (int k = 0; k < flops; k++) if (fscanf(f, "%d", &data[k]) != 1) return 2;
    for (int k = 0; k < outputs; k++) if (fscanf(f, "%d", &shown[k]) != 1) return 2;
    fseek(g, 0, SEEK_END);
    long size = ftell(g);
    rewind(g);
    char *text = malloc(size);
    if (fread(text, 1, size, g) != (size_t)size) return 2;
    int width = inputs + outputs;
    long steps = size / (width + 1);
    char *said = malloc(steps * (width + 1));
    unsigned char *v = calloc(names, 1), *kept = calloc(flops, 1);
    int before = -1;
    struct timespec start, end;
    clock_gettime(CLOCK_MONOTONIC, &start);
    for (long s = 0; s < steps; s++) {
        char *row = text + s * (width + 1), *line = said + s * (width + 1);
        for (int k = 0; k < inputs; k++) v[k] = row[k] == '1';
        for (int k = 0; k < flops; k++) v[inputs + k] = kept[k];
        for (int k = 0; k < cells; k++) {
            int a = v[c[k].in[0]], b = v[c[k].in[1]], d = v[c[k].in[2]];
            v[c[k].out] = c[k].carry ? (a & b) | (a & d) | (b & d) : (c[k].table >> (a + 2 * b + 4 * d + 8 * v[c[k].in[3]])) & 1;
        }
        for (int k = 0; k < inputs; k++) line[k] = '.';
        for (int k = 0; k < outputs; k++) line[inputs + k] = '0' + v[shown[k]];
        line[width] = '\n';
        if (before == 0 && v[0]) for (int k = 0; k < flops; k++) kept[k] = v[data[k]];
        before = v[0];
    }
    clock_gettime(CLOCK_MONOTONIC, &end);
    fwrite(said, 1, steps * (width + 1), stdout);
    fprintf(stderr, "%.3f\n", (end.tv_sec - start.tv_sec) + (end.tv_nsec - start.tv_nsec) / 1e9);
    return 0;
}
