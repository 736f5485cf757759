class N { N next; boolean repOk() { return true; } static void st(int x) { } }
