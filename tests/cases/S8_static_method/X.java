class Cell { int v; boolean repOk() { return true; } static int st() { return 1; } }
