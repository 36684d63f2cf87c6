/* The baseline's public calls. */
#include "baseline_net.h"

/* The first record of the image that does not fit the net, looked at one by
   one; 192 when all fit. */
static size_t first_misfit(const struct net *net, const uint8_t *image)
{
    for (size_t p = 0; p < PLACES; p++) {
        uint32_t record = load32(image + 4 * p);
        if (record > FULL || (record && !net->flag[KNOWN][p]))
            return p;
    }
    for (unsigned t = 0; t < TRANSITIONS; t++) {
        uint32_t record = load32(image + 4 * (PLACES + t)), most = 0, orders = 0;
        if (net->timed & bit(t)) {
            most = net->b[t] == FOR_EVER ? net->a[t] : net->b[t] + 1;
            orders = 1;
        }
        if ((record & 0xffff) > most || record >> 16 > orders)
            return PLACES + t;
    }
    return PLACES + TRANSITIONS;
}

/* Does the image fit? Sixteen records at a time; then one by one the transitions that hold something. */
static int fits(const struct net *net, const uint8_t *image)
{
    uint32_t record[16], wrong = 0, most;
    size_t p = 0, end = (net->places + 15) / 16 * 16;
    for (; p < end; p += 16) {
        memcpy(record, image + 4 * p, sizeof record);
        for (size_t k = 0; k < 16; k++)
            wrong |= record[k] & (0xffff0000 | (net->flag[KNOWN][p + k] - 1u));
    }
    for (; p < PLACES; p += 16) {
        memcpy(record, image + 4 * p, sizeof record);
        for (size_t k = 0; k < 16; k++)
            wrong |= record[k];
    }
    if (wrong)
        return 0;
    for (p = PLACES; p < PLACES + TRANSITIONS; p += 16) {
        memcpy(record, image + 4 * p, sizeof record);
        for (size_t k = 0; k < 16; k++)
            wrong |= record[k];
    }
    if (!wrong)
        return 1;
    uint64_t waiting = 0;
    for (unsigned t = 0; t < TRANSITIONS; t++)
        waiting |= (uint64_t)(load32(image + 4 * (PLACES + t)) != 0) << t;
    if (waiting & ~net->timed)
        return 0;
    for (; waiting; waiting &= waiting - 1) {
        size_t t = lowest(waiting);
        wrong = load32(image + 4 * (PLACES + t));
        most = net->b[t] == FOR_EVER ? net->a[t] : net->b[t] + 1;
        if (wrong >> 17 | ((wrong & 0xffff) > most))
            return 0;
    }
    return 1;
}

base_answer base_check(const uint8_t *table, size_t table_len)
{
    struct net net;
    return base_read(&net, table, table_len, 0);
}

base_answer base_start(const uint8_t *table, size_t table_len, uint8_t *image, size_t image_len)
{
    struct net net;
    base_answer answer = base_read(&net, table, table_len, 0);
    if (answer.number != 0)
        return answer;
    if (image_len != IMAGE)
        return (base_answer){ 12, 0, 0 };
    memset(image, 0, IMAGE);
    for (size_t i = 0; i < net.records; i++) {
        const uint8_t *record = table + 8 * i;
        if (record[0] == 1)
            store32(image + 4 * (size_t)first_of(record), load16(record + 4));
    }
    return answer;
}

base_answer base_run(const uint8_t *table, size_t table_len, uint8_t *image, size_t image_len,
                     const uint8_t *words, size_t words_len, uint8_t *report, size_t report_len)
{
    struct net net;
    base_answer answer = base_read(&net, table, table_len, words_len != 0);
    if (answer.number != 0)
        return answer;
    if (image_len != IMAGE)
        return (base_answer){ 10, PLACES + TRANSITIONS, 0 };
    if (!fits(&net, image))
        return (base_answer){ 10, first_misfit(&net, image), 0 };
    if (words_len % 8 != 0 || words_len > 8 * WORDS)
        return (base_answer){ 11, 0, 0 };
    if (report_len / 24 < words_len / 8)
        return (base_answer){ 12, 0, 0 };
    if (words_len == 0)
        return answer;
    return base_cycles(&net, image, words, words_len / 8, report);
}

base_part base_lookup(const uint8_t *report, size_t report_len, size_t cycle)
{
    (void)report;
    if (cycle == 0 || cycle > report_len / 24)
        return (base_part){ 0, 0 };
    return (base_part){ 24 * (cycle - 1), 24 };
}
