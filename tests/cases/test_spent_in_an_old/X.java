class Cell {
  int v;
  boolean repOk() { return true; }
  //@ ensures \old(slow()) == 0;
  void inc() { ; }
  int slow() { while (v == 1) { } return 0; }
}
