/* Addresses of strings, and of places inside an array. */
static char room[40];
const char *const words[] = {"a ", "table ", "of words: ", 0};
char *const ends[2] = {room + 3, room + 36};
