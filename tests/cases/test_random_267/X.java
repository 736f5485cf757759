import java.util.*;
class Box { int w = 5; Box(int x) { w = w + x; } }
class Node {
  int v;
  Node next;
  int val2(int z) { return z + v; }
  int val(int q) { return q / v; }
}
class Sub extends Node {
  Node other;
  int val(int q) { return super.val(q) + v; }
}
class R {
  static final int K = 3 * (4 - 1);
  int a;
  boolean f;
  Node n;
  static int st(int x) { return x * K - (x >> 1); }
  int h(int x, int y) { return x % y; }
  boolean repOk() {
    int v1 = (a << (a << 3));
    ;
    return true;
  }
  //@ ensures \old(n.next.v) <= (n.v / (x >>> x));
  //@ ensures f == \old((x != 2));
  //@ requires ((!f) ^ ((x != a) != f));
  void m(int x) {
    if ((!((x != x) ? f : f))) {
      n.v += x;
    } else {
      if (((31 >>> a) != x)) {
        int v2 = x;
      } else {
        int v3 = R.st(n.next.v);
        n.next.next = ((f ? f : f) ? ((Sub) n).other : n);
      }
    }
    if ((R.st(x) > n.val(x))) {
    }
    int v4 = (x--);
    HashSet<Node> v5 = new HashSet<Node>();
    int v6 = a;
  }
}
