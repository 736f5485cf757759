class Cell {
  int v;
  boolean repOk() { return true; }
  //@ ensures v == \old(v) + 1;
  void inc() { if (v < 2) v = v + 1; }
}
