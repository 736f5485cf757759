import java.util.*;
class Box { int w = 5; Box(int x) { w = w + x; } }
class Node {
  int v;
  Node next;
  int val2(int z) { return z + v; }
  int val(int q) { return q / v; }
}
class Sub extends Node {
  Node other;
  int val(int q) { return super.val(q) + 1; }
}
class R {
  static final int K = 3 * (4 - 1);
  int a;
  boolean f;
  Node n;
  static int st(int x) { return x * K - (x >> 1); }
  int h(int x, int y) { return x % y; }
  boolean repOk() {
    int v1 = 0;
    while (v1++ < 3 && ((a == a) || (n instanceof Sub))) {
      Node v2 = ((n == n) ? n : n);
      int v3 = a;
      ;
    }
    return (f != (a < 2));
  }
  //@ ensures \result == (a >> a);
  //@ ensures ((1 & 1) == a);
  //@ ensures \result == (1 | a);
  int m() {
    boolean v4 = (n.next instanceof Sub);
    ;
    for (int v5 = 0; v5 < 3; v5++) {
      LinkedList<Node> v6 = new LinkedList<>();
    }
    int v7 = ((a <= 2147483647) ? n.next : n.next).v;
    return R.st(a);
  }
}
