/* Loaded before a program: its growth of memory with the number in REFUSED_GROWTH, counted from 1, is refused. Where that comes the file "refused" is made. */
#include <errno.h>
#include <fcntl.h>
#include <stdlib.h>
#include <unistd.h>

void *__libc_malloc(size_t size);
void *__libc_realloc(void *place, size_t size);

static int is_refused(void) {
    static long growths;
    const char *number = getenv("REFUSED_GROWTH");
    if (!number || ++growths != atol(number))
        return 0;
    close(open("refused", O_CREAT | O_WRONLY, 0600));
    errno = ENOMEM;
    return 1;
}

void *malloc(size_t size) {
    return is_refused() ? NULL : __libc_malloc(size);
}

void *realloc(void *place, size_t size) {
    return is_refused() ? NULL : __libc_realloc(place, size);
}
