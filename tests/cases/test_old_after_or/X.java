class Cell {
  int v; Cell o;
  boolean repOk() { return true; }
  //@ ensures true || \old(o.v) == 0;
  void inc() { ; }
}
