class Cell {
  int v;
  static class A extends RuntimeException { int n = 5; A() { n = n + 1; } boolean repOk() { return false; } }
  static class B extends A { int m; B(int x) { super(); if (x == 3) throw new IllegalArgumentException(); m = x; } }
  static class C extends IndexOutOfBoundsException { A cause; C(A a) { cause = a; } }
  static class D { int f = g(); int g() { throw new A(); } }
  static class Base { int k; Base(int x) { k = x; if (x == 4) throw new B(9); } int go() { return k; } }
  static class Sub extends Base { int j = 1 / (k - 5); Sub(int x) { super(x); k = k + j; } int go() { return super.go() + 1; } }
  int depth(int n) { if (n == 0) throw new B(v); try { return depth(n - 1) + 1; } catch (C c) { return 100; } }
  int loops() {
    int n = 0;
    for (int i = 0; i < 6; i++) {
      int w = i;
      try {
        if (i == v) continue;
        if (i == 4 && v == 8) break;
        if (i % 2 == 0) throw new A();
        n = n + 1;
        try { if (v == 9) throw null; n = n * 2; } catch (ArithmeticException x) { n = 77; }
      } catch (A a) {
        n = n + a.n;
        if (v == 2) break;
        if (v == 7) continue;
        n = n + 1;
      } catch (RuntimeException r) {
        int q = w;
        n = n + 1000 + q;
      }
      n = n + 3;
    }
    return n;
  }
  boolean repOk() {
    try {
      if (v == 0) { Throwable t = new B(1); throw (RuntimeException) t; }
      if (v == 1) { int[] a = new int[2]; a[v + 1] = 3; }
      if (v == 2) { Object2 o = null; o.x = 1; }
      if (v == 3) { new B(3); }
      if (v == 4) { new Sub(4); }
      if (v == 5) { new Sub(5); }
      if (v == 6) { new D(); }
      if (v == 7) { return depth(5) == 0; }
      if (v == 8) { LinkedList<Cell> l = new LinkedList<Cell>(); l.removeFirst(); }
      if (v == 9) { Throwable t = new C(null); C c = (C) t; A a = (A) (RuntimeException) c; }
      if (v == 10) { int[] a = new int[3 - v]; }
      if (v == 11) { try { throw new C(new B(2)); } catch (C c) { throw c.cause; } }
      return false;
    } catch (B b) {
      return b.m == 1 && b.n == 6 || v == 4 && b.m == 9 || v == 7 && b.m == 7 || v == 11 && b.m == 2;
    } catch (A a) {
      return v == 6 && a.n == 6 && !a.repOk();
    } catch (ArrayIndexOutOfBoundsException a) {
      return v == 1;
    } catch (NullPointerException n) {
      return v == 2;
    } catch (IllegalArgumentException e) {
      return v == 3;
    } catch (ArithmeticException e) {
      return v == 5;
    } catch (NoSuchElementException e) {
      return v == 8;
    } catch (ClassCastException e) {
      return v == 9;
    } catch (NegativeArraySizeException e) {
      return v == 10;
    }
  }
  static class Object2 { int x; }
}
