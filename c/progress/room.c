/* Arrays that grow. */
#include "progress/progress.h"
#include <stdbool.h>
#include <stdlib.h>

/* Room for one more in an array of `count`; it doubles. False where there is no memory. */
bool um_grow(void *array, int count, size_t size) {
    void **at = array;
    if (count & (count - 1)) return true;
    void *larger = realloc(*at, (count ? 2 * (size_t)count : 1) * size);
    if (!larger) return false;
    *at = larger;
    return true;
}
