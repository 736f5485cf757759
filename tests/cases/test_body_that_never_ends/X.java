class Cell {
  int v;
  boolean repOk() { return true; }
  //@ ensures v == \old(v) + 1;
  void inc() { while (true) {} }
}
