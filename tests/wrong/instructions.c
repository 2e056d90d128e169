/*
 * Loops in the place of the functions on lists, to judge the judge: as it stands tests/instructions must accept what the compiler makes of
 * it, and with -DMISTAKE=n, for each n below, must refuse it. It is compiled for x86-64 and for aarch64, with no header of either, and never run.
 */
#ifndef MISTAKE
#define MISTAKE 0
#endif
#define MISTAKES 8 /* the highest number below; read by bin/test */

#define WRONG(n) (MISTAKE == (n))

typedef unsigned block __attribute__((vector_size(16)));

unsigned xez_compress(unsigned *words, unsigned long count, unsigned by)
{
    unsigned long i;
    unsigned sum = 0, bits = 0;
    for (i = 0; i < count; i++)
        sum += words[i];
    for (i = 0; i < count / 4; i++)
        if (WRONG(6)) /* copied word by word */
            ((volatile unsigned *)words)[i] = ((volatile unsigned *)words)[i + 4];
        else
            ((volatile block *)words)[i] = ((volatile block *)words)[i + 1];
    if (!WRONG(1)) /* a vector loop less */
        for (i = 0; i < count; i++)
            bits |= words[i] ^ sum;
    if (WRONG(2)) /* a quotient */
        return bits / by;
    return bits + sum;
}

unsigned xez_expand(unsigned *words, unsigned long count, unsigned by)
{
    unsigned long i;
    unsigned sum = 0, bits = 0;
    for (i = 0; i < count; i++)
        sum += words[i];
    for (i = 0; i < count; i++)
        words[i] = words[i] * 2 + sum;
    for (i = 0; i < count; i++)
        if (WRONG(3)) { /* word by word */
            __asm__ volatile("" ::: "memory");
            bits |= words[i];
        } else {
            bits |= words[i] ^ sum;
        }
    return bits;
}

__attribute__((noinline)) static unsigned judged(const unsigned *words, unsigned long count)
{
    unsigned long i;
    unsigned sum = 0;
    for (i = 0; i < count; i++) {
        if (WRONG(7)) /* word by word, in a function that is called */
            __asm__ volatile("" ::: "memory");
        sum += words[i];
    }
    return sum;
}

unsigned xez_why_lost(const unsigned *words, unsigned long count, unsigned number)
{
    return judged(words, count) ^ number;
}

unsigned xez_merge(const unsigned *words, unsigned long count, const unsigned *more, unsigned long more_count)
{
    if (WRONG(8)) /* not judged by that function */
        return words[0] ^ more[0];
    return judged(words, count) ^ judged(more, more_count);
}

unsigned long long xez_write_data(unsigned long long field, unsigned long long by)
{
    if (WRONG(4)) /* a remainder */
        return field % by;
#ifdef __SIZEOF_INT128__
    if (WRONG(5)) /* a remainder that a routine of the compiler's works out */
        return (unsigned long long)((unsigned __int128)field * field % by);
#endif
    return field & by;
}
