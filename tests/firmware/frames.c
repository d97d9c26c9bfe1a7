/* Many inputs or outputs as one file, each as four bytes of length, the lowest first, and its bytes: frames FILE... prints that file. */
#include <stdio.h>

/* The bytes of a file, or -1. */
static long length_of(FILE *file) {
    long len = fseek(file, 0, SEEK_END) == 0 ? ftell(file) : -1;
    rewind(file);
    return len;
}

static int frame(const char *name) {
    FILE *file = fopen(name, "rb");
    long len = file ? length_of(file) : -1;
    int byte;
    if (len < 0) {
        fprintf(stderr, "frames: %s cannot be read\n", name);
        return 0;
    }
    for (int shift = 0; shift < 32; shift += 8) putchar((int)(len >> shift & 255));
    while ((byte = getc(file)) != EOF) putchar(byte);
    fclose(file);
    return 1;
}

int main(int count, char **names) {
    for (int i = 1; i < count; i++)
        if (!frame(names[i])) return 1;
    return fflush(stdout) != 0;
}
