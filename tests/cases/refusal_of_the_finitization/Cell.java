class Cell { int v; int w; boolean repOk() { return v > 0; } }
