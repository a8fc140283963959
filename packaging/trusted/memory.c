/* The kit's functions for memory over the C library, for a processor that it has no archive of them for (it has c/liblibc_c.a for x86-64): what
 * libc/src/heap.rt of the kit declares. An allocation that fails answers 0, with a pointer that may not be read. */
typedef __SIZE_TYPE__ size_t;
extern void *malloc(size_t);
extern void *realloc(void *, size_t);
extern void free(void *);

struct tried {
    size_t ok;
    void *at;
};

static _Alignas(16) char nothing[16];

static struct tried tried(void *at)
{
    struct tried it = {at != 0, at != 0 ? at : nothing};
    return it;
}

struct tried rattle_alloc(size_t size, size_t align)
{
    return tried(malloc(size != 0 ? size : align));
}

struct tried rattle_realloc(void *at, size_t kept, size_t size, size_t align)
{
    (void)kept;
    return tried(realloc(at, size != 0 ? size : align));
}

void rattle_dealloc(void *at)
{
    free(at);
}
