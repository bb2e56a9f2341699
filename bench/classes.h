/* The classes of length by which messages are counted. */
#ifndef CLASSES_H
#define CLASSES_H

#include <stddef.h>
#include <stdlib.h>

static inline long nearest_class(size_t len)
{
    static const long classes[4] = { 20, 60, 120, 250 };
    long best = classes[0];

    for (int i = 1; i < 4; i++)
        if (labs(classes[i] - (long)len) < labs(best - (long)len))
            best = classes[i];
    return best;
}

#endif
