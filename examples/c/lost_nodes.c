/* A record is laid into a stripe, parity is filled, two nodes are lost and filled from the others, and one more is rebuilt from fractions.
 *
 *     ./library FOLDER
 *     cc -I FOLDER examples/c/lost_nodes.c FOLDER/libprzytulisz.a -o lost_nodes && ./lost_nodes
 */
#include <przytulisz.h>
#include <stdio.h>
#include <string.h>

/* What each number means that a function returns. */
static const char *meaning(uint32_t code)
{
    switch (code) {
    case PRZYTULISZ_DONE: return "done";
    case PRZYTULISZ_BAD_SHAPE: return "the shape isn't accepted";
    case PRZYTULISZ_BAD_LENGTH: return "a buffer doesn't have its length";
    case PRZYTULISZ_BAD_NODE: return "there is no such node";
    case PRZYTULISZ_TOO_MANY_LOST: return "more than r nodes are lost";
    case PRZYTULISZ_NOT_WHOLE: return "the survivors belong to no whole stripe";
    default: return "refused";
    }
}

/* Says what was done; the program ends where it was refused. */
static int done(const char *what, uint32_t code)
{
    printf("%s: %s\n", what, meaning(code));
    return code == PRZYTULISZ_DONE;
}

int main(void)
{
    static const char record[] = "Amber Room, panel 7, week 31: 21.5 C, 48 % humidity; week 32: 21.4 C, 51 %";
    static uint8_t stripe[PRZYTULISZ_STRIPE], whole_stripe[PRZYTULISZ_STRIPE];
    static uint8_t fractions[PRZYTULISZ_FRACTIONS], column[PRZYTULISZ_COLUMN], back[PRZYTULISZ_STRIPE + 1];
    const size_t n = 9, r = 3;
    const uint64_t shape = przytulisz_shape(n, r);
    size_t k, m, s, l;

    if (!done("measure 9 nodes, 3 of them parity", przytulisz_sizes(shape, &k, &m, &s, &l)))
        return 1;
    printf("    %zu data nodes, %zu groups of %zu, %zu rows: a stripe has %zu bytes, a fraction %zu\n", k, m, s, l, n * l, l / s);

    /* The record, and parity for it. */
    if (!done("lay the record", przytulisz_lay(shape, (const uint8_t *)record, strlen(record), stripe, n * l)))
        return 1;
    if (!done("fill parity", przytulisz_fill_parity(shape, stripe, n * l)))
        return 1;
    memcpy(whole_stripe, stripe, n * l);

    /* Nodes 2 and 5 are lost: their columns hold anything. */
    memset(stripe + 1 * l, 0xAA, l);
    memset(stripe + 4 * l, 0xAA, l);
    uint8_t whole;
    size_t row, t;
    if (!done("test the stripe without nodes 2 and 5", przytulisz_test(shape, stripe, n * l, &whole, &row, &t)))
        return 1;
    if (whole)
        return 1;
    printf("    not whole: row %zu fails first, with t = %zu\n", row, t);
    if (!done("fill nodes 2 and 5", przytulisz_fill(shape, PRZYTULISZ_LOST(2) | PRZYTULISZ_LOST(5), stripe, n * l)))
        return 1;
    printf("    the stripe is %s\n", memcmp(stripe, whole_stripe, n * l) == 0 ? "as it was" : "another");

    /* Node 3 is rebuilt from a fraction of each other node. */
    const size_t failed = 3;
    size_t read = 0;
    for (size_t i = 1; i <= n; i++) {
        if (i == failed)
            continue;
        if (przytulisz_cut(shape, i, failed, stripe + (i - 1) * l, l, fractions + read, l / s) != PRZYTULISZ_DONE)
            return 1;
        read += l / s;
    }
    if (!done("rebuild node 3 from fractions", przytulisz_rebuild(shape, failed, fractions, read, column, l)))
        return 1;
    printf("    %zu bytes were read, not %zu; the column is %s\n", read, k * l, memcmp(column, stripe + (failed - 1) * l, l) == 0 ? "as it was" : "another");

    /* What is refused leaves everything as it was. */
    done("fill with four nodes lost", przytulisz_fill(shape, PRZYTULISZ_LOST(1) | PRZYTULISZ_LOST(2) | PRZYTULISZ_LOST(3) | PRZYTULISZ_LOST(4), stripe, n * l));
    printf("    the stripe is %s\n", memcmp(stripe, whole_stripe, n * l) == 0 ? "as it was" : "another");

    if (!done("read the record back", przytulisz_read_back(shape, stripe, n * l, back, k * l)))
        return 1;
    /* Zero bytes follow the record. */
    printf("    %s\n", (const char *)back);
    return 0;
}
