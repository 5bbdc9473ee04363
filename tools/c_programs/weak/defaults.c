/* What holds where nothing stronger is there. */
__attribute__((weak)) int limit = 5;
__attribute__((weak)) int scaled(int number) { return number; }
__attribute__((weak)) int shifted(int number) { return number + 100; }
