class Cell {
  int v;
  boolean repOk() { return v >= 0; }
  //@ ensures v == 7;
  void inc() { v = v - 1; }
}
