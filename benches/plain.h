/* The C interface of include/duggfrask.h under another prefix: CALLS(plain2_) declares plain2_fault and so on.
 * The plain C version is compiled once for each level of optimisation, each time under a prefix of its own. */
#ifndef PLAIN_H
#define PLAIN_H

#include "../include/duggfrask.h"

#define CALLS(P)                                                                                                      \
    dugg_answer P##fault(dugg_site site);                                                                             \
    dugg_answer P##clash(dugg_site site, uint16_t a, uint16_t b);                                                     \
    dugg_edited P##set_load(dugg_site site, uint16_t cell, uint16_t load);                                            \
    dugg_edited P##set_reach(dugg_site site, uint16_t from, uint16_t to);                                             \
    dugg_edited P##clear_reach(dugg_site site, uint16_t from, uint16_t to);                                           \
    dugg_answer P##load_test(dugg_site site);                                                                         \
    dugg_answer P##chain(dugg_site site);                                                                             \
    dugg_answer P##class(dugg_site site);                                                                             \
    dugg_answer P##least(dugg_site site);                                                                             \
    dugg_answer P##heaviest(dugg_site site);                                                                          \
    dugg_answer P##plan(dugg_site site, uint8_t *table, size_t len);                                                  \
    dugg_answer P##search(dugg_site site, uint64_t limit, uint8_t *table, size_t len);                                \
    dugg_answer P##find(dugg_site site, uint64_t limit, uint8_t *table, size_t len);                                  \
    dugg_answer P##over_full(dugg_site site, uint32_t cells);                                                         \
    dugg_answer P##change_load(dugg_site *site, uint16_t cell, uint16_t load, uint8_t *table, size_t len);            \
    dugg_answer P##check(dugg_site site, const uint8_t *table, size_t len);                                           \
    dugg_answer P##share(uint16_t slots, uint16_t burst, uint16_t period);                                            \
    dugg_answer P##share_repeated(uint16_t slots, uint16_t burst, uint16_t period, uint16_t repeats);                 \
    dugg_edited P##read_site(const uint8_t *bytes, size_t len);                                                       \
    dugg_answer P##write_site(dugg_site site, uint8_t *out, size_t len);                                              \
    dugg_plan_read P##read_plan(const uint8_t *bytes, size_t len, uint8_t *table, size_t table_len);                  \
    dugg_answer P##write_plan(dugg_site site, const uint8_t *table, size_t table_len, uint8_t *out, size_t len);      \
    dugg_edited P##read_sheet(const uint8_t *bytes, size_t len, uint16_t slots, uint16_t channels,                    \
                              dugg_blocked blocked, uint16_t rule);                                                   \
    dugg_answer P##write_sheet(dugg_site site, uint8_t *out, size_t len);                                             \
    dugg_answer P##tidy(const uint8_t *sheet, size_t len, uint8_t *out, size_t out_len);                              \
    dugg_answer P##admit(dugg_site site, const dugg_flow *flows, size_t count);                                       \
    dugg_answer P##admit_beside(dugg_site site, const dugg_flow *flows, size_t count);                                \
    dugg_answer P##plan_words(dugg_site site, uint32_t *words, size_t count);                                         \
    dugg_answer P##check_words(dugg_site site, const uint32_t *words, size_t count);                                  \
    dugg_answer P##to_words(dugg_site site, const uint8_t *table, size_t len, uint32_t *words, size_t count);         \
    dugg_answer P##to_bytes(dugg_site site, const uint32_t *words, size_t count, uint8_t *table, size_t len);         \
    dugg_answer P##mend(dugg_site site, uint8_t *table, size_t len, uint16_t *changes, size_t count);                 \
    dugg_renumbered P##renumber(dugg_site site);                                                                      \
    dugg_answer P##carry(dugg_site site, const uint8_t *new_table, size_t new_len, uint8_t *old_table,                \
                         size_t old_len);

/* The name of a call in a file that is compiled with -DPREFIX=name_ . */
#define JOIN(a, b) a##b
#define EXPAND_JOIN(a, b) JOIN(a, b)
#define NAME(call) EXPAND_JOIN(PREFIX, call)
#ifdef PREFIX
#define DECLARE(P) CALLS(P)
DECLARE(PREFIX)
#endif

/* The C on bit sets has these four, and the quicker search for the flows to admit the last two. */
dugg_answer bits_plan(dugg_site site, uint8_t *table, size_t len);
dugg_answer bits_check(dugg_site site, const uint8_t *table, size_t len);
dugg_answer bits_change_load(dugg_site *site, uint16_t cell, uint16_t load, uint8_t *table, size_t len);
dugg_answer bits_mend(dugg_site site, uint8_t *table, size_t len, uint16_t *changes, size_t count);
dugg_answer sets_admit(dugg_site site, const dugg_flow *flows, size_t count);
dugg_answer sets_admit_beside(dugg_site site, const dugg_flow *flows, size_t count);

#endif
