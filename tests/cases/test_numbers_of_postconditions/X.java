class Cell {
  int v;
  boolean repOk() { return true; }
  //@ requires true;
  //@ ensures true;
  //@ requires v < 9;
  //@ ensures false;
  void inc() { ; }
}
