import java.util.*;
class Box { int w = 5; Box(int x) { w = w + x; } }
class Node {
  int v;
  Node next;
  int val2(int z) { return z + v; }
  int val(int q) { return q + v; }
}
class Sub extends Node {
  Node other;
  int val(int q) { return super.val(q) + (other == null ? 0 : other.v); }
}
class R {
  static final int K = 3 * (4 - 1);
  int a;
  boolean f;
  Node n;
  static int st(int x) { return x * K - (x >> 1); }
  int h(int x, int y) { return f ? x : y; }
  boolean repOk() {
    if ((h(a, a) > a)) {
    }
    return true;
  }
  //@ ensures (!f);
  //@ requires (a == a);
  boolean m() {
    a += 1;
    f = f;
    ;
    HashSet<Node> v1 = new HashSet<Node>();
    n = ((a >= a) ? n : n.next);
    return (a <= R.st(0));
  }
}
