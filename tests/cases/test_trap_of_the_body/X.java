class Cell {
  int v;
  boolean repOk() { return true; }
  //@ ensures v == \old(v) + 1;
  void inc() { Cell c = null; c.v = 1; }
}
