class Cell {
  int v;
  boolean repOk() { return true; }
  //@ ensures odd() == 1;
  void inc() { v = v + 1; }
  int odd() { if (v % 2 == 1) return 1; }
}
