/* The attributes of a file, which glibc has from 2.28 on: asked of Linux itself (4.11 or later), by the number that the call has there. */
#if defined(__x86_64__)
#define STATX 332
#elif defined(__aarch64__)
#define STATX 291
#endif

long syscall(long number, ...);

__attribute__((visibility("hidden"))) int statx(int folder, const char *path, int flags, unsigned mask, void *told)
{
    return (int)syscall(STATX, folder, path, flags, mask, told);
}
