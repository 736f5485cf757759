class Cell {
  int v;
  boolean repOk() { while (v == 2) {} return true; }
  //@ ensures v == 9;
  void inc() { ; }
}
