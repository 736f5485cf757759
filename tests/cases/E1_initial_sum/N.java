class N { N next; int v = 1 + 1; boolean repOk() { return true; } }
