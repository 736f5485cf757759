import java.util.*;
class Box { int w = 5; Box(int x) { w = w + x; } }
class Node {
  int v;
  Node next;
  int val2(int z) { return z + v; }
  int val(int q) { return next == null ? v : next.v + q; }
}
class Sub extends Node {
  Node other;
  int val(int q) { return super.val(q) + (other == null ? 0 : other.v); }
}
class R {
  static final int K = 3 * (4 - 1);
  int a;
  boolean f;
  Node n;
  static int st(int x) { return x * K - (x >> 1); }
  int h(int x, int y) { return a + x + y; }
  boolean repOk() {
    int[] v1 = new int[2];
    return ((f ? n : n) instanceof Node);
  }
  //@ ensures (n.next == n);
  void m(int x) {
    int v2 = 0;
    while (v2++ < 3 && (a < a)) {
      n = ((4 != x) ? n : n);
      a = (-7);
      a += R.st((x |= a));
    }
    int v3 = (3 >>> R.st((x ^= x)));
    HashSet<Node> v4 = new HashSet<Node>();
    if ((n instanceof Node)) return;
  }
}
