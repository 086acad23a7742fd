/* Calls exchange_apply, and writes the image that it gives: call_apply SHAPE BATCH IMAGE, where
 * BATCH and IMAGE are files. */
#include "exchange.h"
#include <stdio.h>
#include <stdlib.h>
#include <string.h>

enum { ROOM = 4 << 20 };

static uint8_t batch[ROOM], image[ROOM], out[ROOM];

/* Reads a file, and gives how many bytes it has. */
static size_t read_file(const char *name, uint8_t *bytes)
{
    FILE *file = fopen(name, "rb");
    size_t count = file ? fread(bytes, 1, ROOM, file) : 0;
    if (!file || fclose(file) != 0)
        exit(EXIT_FAILURE);
    return count;
}

int main(int argc, char **argv)
{
    size_t count = 0;
    if (argc != 4)
        return EXIT_FAILURE;
    size_t batch_bytes = read_file(argv[2], batch);
    size_t image_bytes = read_file(argv[3], image);
    uint8_t status = exchange_apply((const uint8_t *)argv[1], strlen(argv[1]), batch, batch_bytes,
                                    image, image_bytes, out, sizeof out, &count);
    return status == 0 && fwrite(out, 1, count, stdout) == count ? EXIT_SUCCESS : EXIT_FAILURE;
}
