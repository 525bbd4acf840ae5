/* What the archive calls for a block of bytes, for the shared library alone: so that it needs no C library. (The archive leaves these two names to
 * the program that links it.) No caller sees them. Where the archive comes to call another, the shared library is not made, and so no archive either. */
typedef unsigned char byte;
typedef __SIZE_TYPE__ size;
#define HIDDEN __attribute__((visibility("hidden")))

HIDDEN void *memset(void *to, int value, size n)
{
    byte *t = to;
    for (size i = 0; i < n; i++)
        t[i] = (byte)value;
    return to;
}

HIDDEN void *memcpy(void *to, const void *from, size n)
{
    byte *t = to;
    const byte *f = from;
    for (size i = 0; i < n; i++)
        t[i] = f[i];
    return to;
}
