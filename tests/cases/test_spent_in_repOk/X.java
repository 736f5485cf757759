class Cell {
  int v;
  boolean repOk() { while (v == 2) { } return true; }
  //@ ensures true;
  void inc() { v = 2; }
}
