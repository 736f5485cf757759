class N { N next; M m; boolean repOk() { return true; } }
class M { int v; }
