/* Room for inputs and outputs, which the caller of a function takes of the same heap: 0 where memory is refused. */
#include "host.h"

struct tried { size_t ok; void *at; };
struct tried rattle_alloc(size_t bytes, size_t alignment);
void rattle_dealloc(void *at);

EXPORT(take) void *take_room(size_t bytes) {
    struct tried room = rattle_alloc(bytes, 16);
    return room.ok ? room.at : 0;
}
EXPORT(give) void give_room(void *at) { rattle_dealloc(at); }
