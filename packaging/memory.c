/* The functions that the library leaves to the program, for WebAssembly, which has no C library. */
typedef __SIZE_TYPE__ size_t;

void *memcpy(void *to, const void *from, size_t count);
void *memmove(void *to, const void *from, size_t count);
void *memset(void *to, int byte, size_t count);

void *memcpy(void *to, const void *from, size_t count)
{
    char *t = to;
    const char *f = from;
    while (count-- > 0) {
        *t++ = *f++;
    }
    return to;
}

/* Copies from the end where the target overlaps what follows. */
void *memmove(void *to, const void *from, size_t count)
{
    char *t = to;
    const char *f = from;
    if (t < f) {
        return memcpy(to, from, count);
    }
    while (count-- > 0) {
        t[count] = f[count];
    }
    return to;
}

void *memset(void *to, int byte, size_t count)
{
    char *t = to;
    while (count-- > 0) {
        *t++ = (char)byte;
    }
    return to;
}
