/* What a program asks glibc from 2.33 on when it starts, answered for earlier ones: which features the processor has. The program asks for those of
 * x86-64-v2, of which none needs a register that the system would have to save: each that the processor has can be used. */
struct leaf {
    unsigned has[4], usable[4];
};

static void ask(unsigned number, unsigned *told)
{
    __asm__ volatile("cpuid" : "=a"(told[0]), "=b"(told[1]), "=c"(told[2]), "=d"(told[3]) : "a"(number), "c"(0));
}

/* Index 0 is for the processor's leaf 1, and 2 for 0x80000001, as <sys/platform/x86.h> numbers them. Nothing is known of others. */
__attribute__((visibility("hidden"))) const struct leaf *__x86_get_cpuid_feature_leaf(unsigned index)
{
    static struct leaf found[3];
    struct leaf *it = &found[index < 3 ? index : 1];
    unsigned number = index == 0 ? 1 : index == 2 ? 0x80000001u : 0, most[4];
    if (number == 0)
        return it;
    ask(number & 0x80000000u, most);
    if (most[0] < number)
        return it;
    ask(number, it->has);
    for (int k = 0; k < 4; k++)
        it->usable[k] = it->has[k];
    return it;
}
