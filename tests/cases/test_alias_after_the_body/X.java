class P { P l; P r; boolean repOk() { return true; }
  //@ ensures l == \old(r) && r == \old(l);
  void swap() { P k = l; l = r; r = k; }
  //@ ensures l == \old(r) && r == \old(l);
  void wrong() { l = r; r = l; } }
