import java.util.*;
class Box { int w = 5; Box(int x) { w = w + x; } }
class Node {
  int v;
  Node next;
  int val2(int z) { return z + v; }
  int val(int q) { return q + v; }
}
class Sub extends Node {
  Node other;
  int val(int q) { return super.val(q) + 1; }
}
class R {
  static final int K = 3 * (4 - 1);
  int a;
  boolean f;
  Node n;
  static int st(int x) { return x * K - (x >> 1); }
  int h(int x, int y) { return x % y; }
  boolean repOk() {
    return true;
  }
  //@ ensures a == \old(a) + 2;
  //@ ensures n == \old(n.next);
  //@ ensures \old((~(a + a))) == (((a < a) ? f : f) ? a : n.val(a));
  int m() {
    boolean v1 = ((3 != (a % 1)) || (((4 != a) ? n : n) == n.next));
    int[] v2 = new int[3];
    if ((((a / a) >>> a) < a)) {
    }
    int v3 = 0;
    do {
      v2[(-v3)] ^= a;
      if (v1) {
        ;
      }
    } while (++v3 < 3 & (!(n == null)));
    if (v1) return a;
    return (~a);
  }
}
