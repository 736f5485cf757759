class N extends A { N next; boolean repOk() { return true; } }
class A { A() { } }
