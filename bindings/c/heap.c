/* The heap of the library: the program's malloc, realloc and free.
 *
 * `ok` says whether there was memory. A block of no bytes takes as many as its alignment says, so
 * that malloc is never asked for 0. Each alignment is at most 16. A program that is linked
 * statically may define these three functions itself: the linker then takes none from here. */
#include <stdbool.h>
#include <stddef.h>
#include <stdlib.h>

typedef struct {
    bool ok;
    void *at;
} rattle_block;

rattle_block rattle_alloc(size_t size, size_t align);
rattle_block rattle_realloc(void *at, size_t kept, size_t size, size_t align);
void rattle_dealloc(void *at);

static char nowhere[16];

static rattle_block block(void *at)
{
    rattle_block made = {at != NULL, at != NULL ? at : (void *)nowhere};
    return made;
}

rattle_block rattle_alloc(size_t size, size_t align)
{
    return block(malloc(size != 0 ? size : align));
}

rattle_block rattle_realloc(void *at, size_t kept, size_t size, size_t align)
{
    (void)kept;
    return block(realloc(at, size != 0 ? size : align));
}

void rattle_dealloc(void *at)
{
    free(at);
}
