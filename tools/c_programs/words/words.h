#ifndef WORDS_H
#define WORDS_H
#include "host.h"

struct word {
    const char *at;
    u64 length;
};

u64 split(const char *text, struct word *words, u64 limit);
int is_letter(char c);
char upper(char c);
extern char line[];
void add(const char *at, u64 length);
void end_line(void);

#endif
