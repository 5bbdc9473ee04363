/* The table, of functions of its own and of another file. */
typedef long (*step)(long);
struct command {
    const char *name;
    step run;
};
long twice(long number);
long square(long number);
static long next(long number) { return number + 1; }

const struct command commands[] = {{"twice ", twice}, {"next ", next}, {"square ", square}, {"twice ", twice}};
const int command_count = sizeof commands / sizeof commands[0];
