class Cell {
  int v;
  boolean repOk() { return true; }
  //@ ensures \result == !b;
  boolean plus(boolean b) { return b ? v == 3 : v == 0; }
}
