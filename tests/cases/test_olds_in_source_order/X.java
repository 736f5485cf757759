class Cell {
  int v; Cell o;
  boolean repOk() { return true; }
  //@ ensures \old(1 / v) == \old(o.v);
  void inc() { ; }
}
