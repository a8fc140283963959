/* The start of a program that asks for no glibc newer than 2.17. The start files of glibc 2.34 and later name __libc_start_main of that version, which
 * runs what a program has to run before main; an earlier one is given a function that does, as in glibc 2.33's own start files (csu/elf-init.c). */
#if defined __x86_64__
__asm__(".symver __libc_start_main, __libc_start_main@GLIBC_2.2.5");
__asm__(".text\n.globl _start\n.type _start,@function\n_start:\n\t.cfi_startproc\n\t.cfi_undefined rip\n\tendbr64\n\txor %ebp,%ebp\n\tmov %rdx,%rsi\n"
        "\tmov %rsp,%rdi\n\tand $-16,%rsp\n\tcall start_of\n\thlt\n\t.cfi_endproc\n");
#elif defined __aarch64__
__asm__(".symver __libc_start_main, __libc_start_main@GLIBC_2.17");
__asm__(".text\n.globl _start\n.type _start,%function\n_start:\n\t.cfi_startproc\n\t.cfi_undefined x30\n\tbti c\n\tmov x29,#0\n\tmov x30,#0\n\tmov x1,x0\n"
        "\tmov x0,sp\n\tbl start_of\n\tbrk #1\n\t.cfi_endproc\n");
#endif

#define HIDDEN __attribute__((visibility("hidden")))
typedef void initial(int, char **, char **);
extern initial *__preinit_array_start[] HIDDEN, *__preinit_array_end[] HIDDEN, *__init_array_start[] HIDDEN, *__init_array_end[] HIDDEN;
extern void _init(void) HIDDEN;
extern int main(int, char **, char **);
extern int __libc_start_main(int (*)(int, char **, char **), int, char **, initial *, void (*)(void), void (*)(void), void *);

static void begin(int count, char **words, char **names)
{
    for (initial **it = __preinit_array_start; it < __preinit_array_end; it++)
        (*it)(count, words, names);
    _init();
    for (initial **it = __init_array_start; it < __init_array_end; it++)
        (*it)(count, words, names);
}

static void nothing(void) {}

/* `at` is where the system has put the number of words, and the words after it; `end` is for atexit. */
__attribute__((used)) HIDDEN void start_of(long *at, void (*end)(void))
{
    __libc_start_main(main, at[0], (char **)(at + 1), begin, nothing, end, at);
}

const int _IO_stdin_used = 0x20001;
