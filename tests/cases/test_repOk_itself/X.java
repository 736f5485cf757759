class Cell {
  int v;
  boolean repOk() { return v > 0; }
  void inc() { ; }
}
