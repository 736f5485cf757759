class Cell { int v; boolean repOk() { while (v == 2) {} return true; } }
