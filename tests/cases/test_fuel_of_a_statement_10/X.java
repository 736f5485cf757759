class Cell {
  int v;
  boolean repOk() { return true; }
  //@ ensures v == 0;
  //@ ensures v == 0;
  void inc() { ; }
}
