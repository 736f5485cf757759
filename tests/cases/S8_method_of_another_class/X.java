class Cell { int v; boolean repOk() { return true; } }
class D { void w() { } }
