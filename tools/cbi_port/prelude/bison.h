/* How a parser of bison makes its stacks longer, in the form that its skeletons have for it (`yyoverflow`): each stack by itself. Without
   it they cut one block of memory into all of them, which is no memory of one type. */
#define CBI_STACK(at, used, size) do { \
        __typeof__(*(at)) cbi_made = __builtin_malloc(*(size) * sizeof **(at)); \
        if (!cbi_made) \
            __builtin_abort(); \
        __builtin_memcpy(cbi_made, *(at), used); \
        *(at) = cbi_made; \
    } while (0)
#define CBI_SIZE(size) do { \
        if (YYMAXDEPTH <= *(size)) \
            __builtin_abort(); \
        *(size) = 2 * *(size) < YYMAXDEPTH ? 2 * *(size) : YYMAXDEPTH; \
    } while (0)
#define CBI_STACKS_2(a, m, b, n, size) do { CBI_SIZE(size); CBI_STACK(a, m, size); CBI_STACK(b, n, size); } while (0)
#define CBI_STACKS_3(a, m, b, n, c, o, size) do { CBI_STACKS_2(a, m, b, n, size); CBI_STACK(c, o, size); } while (0)
#define CBI_STACKS(a, b, c, d, e, f, g, name, ...) name
#define yyoverflow(told, ...) CBI_STACKS(__VA_ARGS__, CBI_STACKS_3, , CBI_STACKS_2, , )(__VA_ARGS__)
