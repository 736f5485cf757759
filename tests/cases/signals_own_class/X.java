class Cell { int v; boolean repOk() { return true; }
  static class Full extends Exception { int at; Full(int at) { this.at = at; } }
  //@ signals (Full f) f.at == \old(v) && v == 7;
  void take() { int old = v; v = 7; throw new Full(old); } }
