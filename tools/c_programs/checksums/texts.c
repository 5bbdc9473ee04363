/* What is summed: a constant of another file, and its length. */
const char text[] = "The quick brown fox jumps over the lazy dog";
const unsigned long text_length = sizeof text - 1;
