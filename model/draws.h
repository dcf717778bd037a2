/* Pseudo-random draws for the generators, the same everywhere. Include it
   where struct generator is declared: its member `state` is drawn from. */

#ifndef DRAWS_H
#define DRAWS_H

typedef void maker(struct generator *g);

struct choice {
    unsigned weight;
    maker *make;
};

#define COUNT(table) (sizeof (table) / sizeof *(table))
#define ONE_OF(g, table) ((table)[below((g), COUNT(table))])
#define MAKE_ONE(g, choices) make_one((g), (choices), COUNT(choices))

/* Draws. */

/* The next number of splitmix64. */
static uint64_t draw(struct generator *g)
{
    uint64_t z = g->state += UINT64_C(0x9E3779B97F4A7C15);

    z = (z ^ z >> 30) * UINT64_C(0xBF58476D1CE4E5B9);
    z = (z ^ z >> 27) * UINT64_C(0x94D049BB133111EB);
    return z ^ z >> 31;
}

static uint64_t below(struct generator *g, uint64_t bound)
{
    return draw(g) % bound;
}

static bool chance(struct generator *g, unsigned percent)
{
    return below(g, 100) < percent;
}

static void make_one(struct generator *g, const struct choice *choices,
                     size_t count)
{
    unsigned total = 0;
    uint64_t left;

    for (size_t i = 0; i < count; i++)
        total += choices[i].weight;
    left = below(g, total);
    while (left >= choices->weight)
        left -= choices++->weight;
    choices->make(g);
}

#endif
