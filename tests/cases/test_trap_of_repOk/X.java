class Cell {
  int v;
  boolean repOk() { return 6 / v > 0; }
  //@ ensures true;
  void inc() { v = v - 1; }
}
