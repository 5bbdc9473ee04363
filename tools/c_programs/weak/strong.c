/* What replaces some of it. */
int limit = 9;
int scaled(int number) { return 11 * number; }
int own(int number) { return number + 2; }
int present(int number) { return number / 3; }
