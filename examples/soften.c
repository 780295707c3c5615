/* soften IN OUT: a PAM file, blurred by 1, 4, 6, 4, 1 over 16 with one decimation, written as a PAM file. */
#include <corbelrush.h>
#include <stdio.h>
#include <stdlib.h>

static int fails(const char *what, uint32_t number)
{
    if (number) fprintf(stderr, "%s: refused %u: %s\n", what, (unsigned)number, corbelrush_says(number));
    return number != 0;
}

int main(int count, char **names)
{
    static const float weights[5] = {1 / 16.0f, 4 / 16.0f, 6 / 16.0f, 4 / 16.0f, 1 / 16.0f};
    FILE *in = count == 3 ? fopen(names[1], "rb") : NULL, *out;
    if (!in || fseek(in, 0, SEEK_END)) return perror("soften IN OUT"), 2;
    size_t room = (size_t)ftell(in) + CORBELRUSH_PAM_HEADER;
    uint8_t *file = malloc(room), *picture = malloc(room), *scratch = malloc(room);
    uint64_t length, place;
    uint32_t w, h;
    if (!file || !picture || !scratch) return perror("soften"), 3;
    rewind(in);
    size_t got = fread(file, 1, room, in);
    if (fails("read", corbelrush_pam_read(file, got, picture, room, &w, &h, &length))) return 1;
    if (fails("blur", corbelrush_blur(picture, length, w, h, scratch, room, weights, 5, 1, 1, CORBELRUSH_DUPLICATE))) return 1;
    if (fails("write", corbelrush_pam_write(picture, length, w, h, file, room, &length, &place))) return 1;
    out = fopen(names[2], "wb");
    if (!out || fwrite(file, 1, length, out) != length || fclose(out)) return perror(names[2]), 3;
    return 0;
}
