#include <stdio.h>
#include <stdlib.h>
/* gcc's manual: a lesser number runs first before main, and last behind it; one without a number runs behind those with one, and the other way round. */
static int begun;
static void say(const char *what) { printf("%d %s\n", ++begun, what); }
static void plain(void) __attribute__((constructor));
static void plain(void) { say("plain"); }
__attribute__((constructor((300)))) static void late(void) { say("late"); }
static void __attribute__((__constructor__(200))) early(void) { say("early"); }
static void __attribute__((constructor)) second(void) { say("second"); }
static void __attribute__((destructor)) end(void) { say("end"); }
static void __attribute__((destructor(200))) very_end(void) { say("very end"); }
static void __attribute__((destructor)) before_end(void) { say("before end"); }
void __attribute__((constructor, destructor)) both(void) { say("both"); }
static void registered(void) { say("registered"); }
int main(void)
{
    atexit(registered);
    say("main");
    return 3;
}
/* writes
1 early
2 late
3 plain
4 second
5 both
6 main
7 registered
8 both
9 before end
10 end
11 very end
status 3 */
