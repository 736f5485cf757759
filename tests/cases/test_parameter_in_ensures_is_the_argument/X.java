class Cell {
  int v;
  boolean repOk() { return true; }
  //@ ensures v == \old(v) + x;
  void plus(int x) { v += x; x = 9; }
}
