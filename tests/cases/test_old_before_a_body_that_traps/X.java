class Cell {
  int v;
  boolean repOk() { return true; }
  //@ ensures \old(1 / v) == 1;
  void inc() { Cell c = null; c.v = 1; }
}
