/* Dense cases: a table of code addresses, or of words. */
const char *day(int number) {
    switch (number) {
    case 0: return "sun";
    case 1: return "mon";
    case 2: return "tue";
    case 3: return "wed";
    case 4: return "thu";
    case 5: return "fri";
    case 6: return "sat";
    }
    return "none";
}
