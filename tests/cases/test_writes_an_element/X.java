class S { int[] a; boolean repOk() { return true; }
  //@ requires 0 <= i && i < a.length;
  //@ ensures \result == \old(a[i]) && a[i] == 9 && a.length == \old(a.length);
  int put(int i) { int w = a[i]; a[i] = 9; return w; } }
