class Cell {
  int v;
  boolean repOk() { return true; }
  //@ ensures v > 0;
  void inc() { while (v == 2) {} v = v + 1; }
}
