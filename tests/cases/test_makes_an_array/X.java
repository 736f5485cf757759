class Cell {
  int v;
  boolean repOk() { return true; }
  //@ ensures v == 3;
  void inc() { int[] a = new int[v]; a[1] = 3; v = a[1]; }
}
