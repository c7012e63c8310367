/* The sites that calls are timed on, and random numbers. */
#include <string.h>
#include "bench.h"

void size(dugg_site *s, unsigned cells, unsigned slots, unsigned channels)
{
    memset(s, 0, sizeof *s);
    s->cells = cells, s->slots = slots, s->channels = channels, s->rule = 1;
}

void tunnel(dugg_site *s, unsigned width)
{
    for (unsigned i = 0; i < s->cells; i++)
        for (unsigned j = i + 1; j < s->cells && j <= i + width; j++)
            s->reach[i] |= 1u << j;
}

void block_half(dugg_site *s, bool by_channels)
{
    unsigned n = s->slots * s->channels;
    for (unsigned p = 0; p < n; p++)
        if (by_channels ? p % s->channels >= s->channels / 2 : p % 2 == 1)
            s->blocked[p / 64] |= 1ull << p % 64;
    for (unsigned i = 0; i < s->cells; i++)
        s->loads[i] /= 2;
}

uint64_t chance(uint64_t *seed)
{
    uint64_t z = *seed += 0x9E3779B97F4A7C15;
    z = (z ^ z >> 30) * 0xBF58476D1CE4E5B9;
    z = (z ^ z >> 27) * 0x94D049BB133111EB;
    return z ^ z >> 31;
}

const char *site_name(int site)
{
    static const char *const names[NAMED_SITES] = {
        [P1] = "small: P1",
        [MIDDLE_TUNNEL] = "middle: tunnel, 2 neighbours either side",
        [MIDDLE_ALL] = "middle: all clash, just full",
        [TUNNEL] = "largest: tunnel, 3 neighbours either side, just full",
        [ALL_CLASH] = "largest: all clash, just full",
        [NONE_CLASH] = "largest: none clash, just full",
        [MIXED] = "largest: tunnel, 3 neighbours either side, mixed loads",
        [NONE_MIXED] = "largest: none clash, every load another",
    };
    return names[site];
}

static uint16_t load_in(int site, unsigned i)
{
    switch (site) {
    case P1: return (const uint16_t[]){5, 1, 4}[i];
    case MIDDLE_TUNNEL: return (const uint16_t[]){50, 40, 38}[i % 3];
    case MIDDLE_ALL: return i < 14 ? 22 : 21;
    case TUNNEL: return (const uint16_t[]){700, 500, 448, 400}[i % 4];
    case ALL_CLASH: return 64;
    case NONE_CLASH: return 2048;
    case MIXED: return 200 + (97 * i * i + 31 * i) % 312;
    default: return 64 * (i + 1);
    }
}

dugg_site site_of(int site)
{
    dugg_site s;
    switch (site) {
    case P1: size(&s, 3, 3, 2); s.reach[1] = 5; break;
    case MIDDLE_TUNNEL: size(&s, 12, 32, 4); tunnel(&s, 2); break;
    case MIDDLE_ALL: size(&s, 16, 50, 7); tunnel(&s, 15); break;
    case ALL_CLASH: size(&s, 32, 128, 16); tunnel(&s, 31); break;
    case TUNNEL:
    case MIXED: size(&s, 32, 128, 16); tunnel(&s, 3); break;
    default: size(&s, 32, 128, 16); break;
    }
    for (unsigned i = 0; i < s.cells; i++)
        s.loads[i] = load_in(site, i);
    return s;
}
