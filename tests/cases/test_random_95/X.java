import java.util.*;
class Box { int w = 5; Box(int x) { w = w + x; } }
class Node {
  int v;
  Node next;
  int val2(int z) { return z + v; }
  int val(int q) { return q + v; }
}
class Sub extends Node {
  Node other;
  int val(int q) { return super.val(q) + v; }
}
class R {
  static final int K = 3 * (4 - 1);
  int a;
  boolean f;
  Node n;
  static int st(int x) { return x * K - (x >> 1); }
  int h(int x, int y) { return x - y; }
  boolean repOk() {
    int v1 = (-(~a));
    if (((++v1) != v1)) {
      int v2 = v1;
    } else {
      int[] v3 = new int[2];
    }
    return f || a >= 0;
  }
  //@ requires (n == null);
  //@ ensures \old((1 & 1)) <= (a + a);
  boolean m() {
    if ((n == null)) {
      boolean v4 = (n instanceof Sub);
    }
    return (a == (1 % a));
  }
}
