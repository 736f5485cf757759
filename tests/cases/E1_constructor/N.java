class N { N next; N() { } boolean repOk() { return true; } }
