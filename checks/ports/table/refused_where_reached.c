#include <unistd.h>
__attribute__((used)) static int kept_by_word(void) { return fork(); }
static int kept_by_section(void) __attribute__((section(".text.kept")));
static int kept_by_section(void) { return fork(); }
static int by_address(void) { return fork(); }
static int (*table[])(void) = { by_address };
static int by_length(void) { return fork(); }
static int hidden(void) { return fork(); }
static void away(void) { __asm__("nop"); } int here(void) { __asm__("hlt"); return 1; }
int main(int count, char **words)
{
    char several[sizeof by_length()];
    { int hidden = 2; count += hidden; }
    return table[0]() + sizeof several + hidden() + here();
}
/* refused 2 `fork` */
/* refused 4 `fork` */
/* refused 5 `fork` */
/* refused 7 `fork` */
/* refused 8 `fork` */
/* refused 9 `asm` */
