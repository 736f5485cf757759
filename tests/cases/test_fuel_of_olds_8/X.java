class Cell {
  int v;
  boolean repOk() { return true; }
  //@ ensures \old(v) == \old(v);
  void inc() {  }
}
