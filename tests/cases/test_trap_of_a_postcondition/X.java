class Cell {
  int v; Cell o;
  boolean repOk() { return true; }
  //@ ensures o.v == 0;
  void inc() { ; }
}
