class N { N next; boolean repOk() { return true; } }
class Full extends RuntimeException { }
