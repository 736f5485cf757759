class Cell { int v; Cell o; boolean repOk() { return true; }
  //@ ensures \result == \old(o) || \result.v == v;
  Cell get() { Cell c = new Cell(); c.v = v; return o == null ? c : o; } }
