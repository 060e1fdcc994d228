/* Checks a model and a trace and prints the verdict's numbers. */
#include "../include/cantivorex.h"
#include <stdio.h>

static size_t load(const char *path, uint8_t *bytes, size_t room)
{
    FILE *file = fopen(path, "rb");
    size_t len = file ? fread(bytes, 1, room, file) : 0;
    if (file)
        fclose(file);
    return len;
}

int main(int argc, char **argv)
{
    static uint8_t model[65537], trace[4097], state[512], names[128];
    static uint16_t table[4096], index[CANTIVOREX_INDEX_ENTRIES];
    uint64_t out[CANTIVOREX_OUT_ENTRIES];
    if (argc != 3)
        return 2;
    size_t models = load(argv[1], model, sizeof model), traces = load(argv[2], trace, sizeof trace);
    cantivorex_safe_check_indexed(model, models, trace, traces, state, sizeof state, table, 4096, names, sizeof names,
        index, CANTIVOREX_INDEX_ENTRIES, out, CANTIVOREX_OUT_ENTRIES);
    for (int i = 0; i < CANTIVOREX_OUT_ENTRIES; i++)
        printf("%s%llu", i ? " " : "", (unsigned long long)out[i]);
    printf("\n");
    return 0;
}
