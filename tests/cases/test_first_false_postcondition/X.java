class Cell {
  int v;
  boolean repOk() { return true; }
  //@ ensures v < 3;
  //@ ensures v < 2;
  //@ ensures v < 1;
  void inc() { ; }
}
