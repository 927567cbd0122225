/* Names that an instrumented module calls and that a ThreadSanitizer of clang 14 doesn't have. Its memcpy, memmove and memset see what they touch. */
#include <string.h>

void *__tsan_memcpy(void *to, const void *from, size_t size);
void *__tsan_memmove(void *to, const void *from, size_t size);
void *__tsan_memset(void *to, int byte, size_t size);

__attribute__((weak, no_sanitize("thread"))) void *__tsan_memcpy(void *to, const void *from, size_t size)
{
    return memcpy(to, from, size);
}

__attribute__((weak, no_sanitize("thread"))) void *__tsan_memmove(void *to, const void *from, size_t size)
{
    return memmove(to, from, size);
}

__attribute__((weak, no_sanitize("thread"))) void *__tsan_memset(void *to, int byte, size_t size)
{
    return memset(to, byte, size);
}
