/* The functions. */
typedef long (*step)(long);
long twice(long number) { return number + number; }
long square(long number) { return number * number; }
long apply(step one, step other, long number) { return other(one(number)); }
static const step steps[] = {twice, square};
step chosen(int which) { return steps[which]; }
