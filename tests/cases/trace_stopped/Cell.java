class Cell { int v; boolean repOk() { return v % 2 == 0; } }
