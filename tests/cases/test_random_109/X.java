import java.util.*;
class Box { int w = 5; Box(int x) { w = w + x; } }
class Node {
  int v;
  Node next;
  int val2(int z) { return z + v; }
  int val(int q) { return q / v; }
}
class Sub extends Node {
  Node other;
  int val(int q) { return super.val(q) + 1; }
}
class R {
  static final int K = 3 * (4 - 1);
  int a;
  boolean f;
  Node n;
  static int st(int x) { return x * K - (x >> 1); }
  int h(int x, int y) { return x - y; }
  boolean repOk() {
    return (n instanceof Node);
  }
  //@ ensures (x == (~a)) && \old((n instanceof Node));
  //@ ensures ((0 | 1) >= (-1 >>> x)) || \old((!f));
  int m(int x) {
    LinkedList<Node> v1 = new LinkedList<>();
    LinkedList<Node> v2 = new LinkedList<>();
    if ((n == null)) {
    }
    return a;
  }
}
