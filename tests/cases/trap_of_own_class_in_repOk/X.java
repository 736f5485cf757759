class Cell { int v; boolean repOk() { if (v == 3) throw new Full(); return true; }
  static class Full extends Exception { }
  void take() { v = v + 1; } }
