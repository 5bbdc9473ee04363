/* What main.c names. */
__attribute__((visibility("hidden"))) int hidden(int number) { return number + 3; }
__attribute__((visibility("protected"))) int shown(int number) { return 10 * number + hidden(1); }
int renamed(int number) __attribute__((alias("shown")));
int variable = 5;
extern int other_name __attribute__((alias("variable")));
__attribute__((section(".bss.own"))) int kept_apart;
