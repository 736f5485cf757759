class Cell {
  int v;
  boolean repOk() { return true; }
  //@ ensures \result == v;
  int inc() { if (v > 0) return v; }
}
