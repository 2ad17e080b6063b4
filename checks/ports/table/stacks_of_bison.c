#include <stdio.h>
#include <stdlib.h>
#include <string.h>
/* How a parser of bison makes its stacks longer, as its skeleton has it. */
typedef union { int number; char *text; } YYSTYPE;
typedef short yytype_int16;
#define YYINITDEPTH 3
#define YYMAXDEPTH 50
#define YYSIZE_T unsigned long
#define YY_(text) text
#ifndef yyoverflow
union yyalloc { yytype_int16 yyss_alloc; YYSTYPE yyvs_alloc; };
# define YYSTACK_GAP_MAXIMUM (sizeof (union yyalloc) - 1)
# define YYSTACK_BYTES(N) ((N) * (sizeof (yytype_int16) + sizeof (YYSTYPE)) + YYSTACK_GAP_MAXIMUM)
# define YYSTACK_RELOCATE(Stack_alloc, Stack) \
    do { \
        YYSIZE_T yynewbytes; \
        memcpy (&yyptr->Stack_alloc, Stack, yysize * sizeof (*(Stack))); \
        Stack = &yyptr->Stack_alloc; \
        yynewbytes = yystacksize * sizeof (*Stack) + YYSTACK_GAP_MAXIMUM; \
        yyptr += yynewbytes / sizeof (*yyptr); \
    } while (0)
#endif
static int parse(const char *s)
{
    yytype_int16 yyssa[YYINITDEPTH], *yyss = yyssa, *yyssp = yyss;
    YYSTYPE yyvsa[YYINITDEPTH], *yyvs = yyvsa, *yyvsp = yyvs;
    YYSIZE_T yystacksize = YYINITDEPTH;
    int total = 0;
    yyvsp->number = 0;
    *yyssp = 0;
    for (; *s; s++) {
        if (yyss + yystacksize - 1 <= yyssp) {
            YYSIZE_T yysize = yyssp - yyss + 1;
#ifdef yyoverflow
            YYSTYPE *yyvs1 = yyvs;
            yytype_int16 *yyss1 = yyss;
            yyoverflow (YY_("memory exhausted"), &yyss1, yysize * sizeof (*yyssp), &yyvs1, yysize * sizeof (*yyvsp), &yystacksize);
            yyss = yyss1;
            yyvs = yyvs1;
#else
            union yyalloc *yyptr;
            if (YYMAXDEPTH <= yystacksize)
                return -1;
            yystacksize *= 2;
            if (YYMAXDEPTH < yystacksize)
                yystacksize = YYMAXDEPTH;
            yyptr = (union yyalloc *) malloc (YYSTACK_BYTES (yystacksize));
            if (!yyptr)
                return -2;
            YYSTACK_RELOCATE (yyss_alloc, yyss);
            YYSTACK_RELOCATE (yyvs_alloc, yyvs);
#endif
            yyssp = yyss + yysize - 1;
            yyvsp = yyvs + yysize - 1;
        }
        *++yyssp = (yytype_int16) (*s == '"');
        if (*s == '"')
            (++yyvsp)->text = strchr ("quote", 'u');
        else
            (++yyvsp)->number = *s;
    }
    for (; yyssp > yyss; yyssp--, yyvsp--)
        total = total * 3 % 1000 + (*yyssp ? (int) strlen (yyvsp->text) : yyvsp->number);
    return total + (int) yystacksize;
}
int main(void)
{
    printf("%d %d %d\n", parse(""), parse("a\"b"), parse("abcdefghijklmnop\"qrs\"tuvwxyz"));
    return 0;
}
/* memory cells */
/* writes
3 997 1063
status 0 */
