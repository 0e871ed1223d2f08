/* Decodes sixel text from standard input by one call of libsixel's sixel_decode_raw:
 *
 *     decode_raw          paints, and writes nothing
 *     decode_raw render   and writes the picture as a PPM to standard output
 *
 * bench/times builds it and runs it beside `sixel check` and `sixel render`: a program each, from its start to its end.
 */
#include <sixel/sixel.h>
#include <stdio.h>
#include <stdlib.h>
#include <string.h>

enum { MOST_BYTES = 1 << 26 };

typedef struct {
    unsigned char *registers; /* one a pixel, row by row */
    unsigned char *palette;   /* red, green and blue of each register */
    int width, height, colours;
} Picture;

static void fail(const char *what)
{
    fprintf(stderr, "decode_raw: %s\n", what);
    exit(1);
}

/* Like every function here it leaves its memory to the end of the process. */
static void *room(size_t bytes)
{
    void *memory = malloc(bytes);
    if (memory == NULL)
        fail("out of memory");
    return memory;
}

static Picture decode(unsigned char *text, int bytes)
{
    Picture it;
    SIXELSTATUS status = sixel_decode_raw(text, bytes, &it.registers, &it.width, &it.height, &it.palette, &it.colours,
                                          NULL);
    if (SIXEL_FAILED(status))
        fail("sixel_decode_raw refuses the text");
    return it;
}

static void write_ppm(const Picture *it)
{
    size_t pixels = (size_t)it->width * it->height;
    unsigned char *samples = room(3 * pixels);
    for (size_t at = 0; at < pixels; at++)
        memcpy(samples + 3 * at, it->palette + 3 * it->registers[at], 3);
    printf("P6\n%d %d\n255\n", it->width, it->height);
    if (fwrite(samples, 3, pixels, stdout) != pixels || fflush(stdout) != 0)
        fail("the picture can't be written");
}

int main(int count, char **words)
{
    unsigned char *text = room(MOST_BYTES);
    size_t bytes = fread(text, 1, MOST_BYTES, stdin);
    if (bytes == MOST_BYTES || ferror(stdin))
        fail("the text is too long, or can't be read");
    Picture picture = decode(text, (int)bytes);
    if (count > 1 && strcmp(words[1], "render") == 0)
        write_ppm(&picture);
    return 0;
}
