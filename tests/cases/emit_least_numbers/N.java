class N { int a; long b; boolean c; boolean repOk() { return c; } }
