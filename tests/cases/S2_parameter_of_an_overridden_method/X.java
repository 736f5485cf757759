class Cell extends B { int v; boolean repOk() { return true; }
  void w(int y) { } }
class B { void w(int x) { } }
