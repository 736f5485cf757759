class Cell { int v; boolean repOk() { if (v == 1) throw new Exception(); return true; } }
