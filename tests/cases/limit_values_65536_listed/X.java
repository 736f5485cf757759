class Cell { int v; boolean repOk() { return v == 65534; } }
