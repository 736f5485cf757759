class N { N next; boolean repOk() { return true; } }
