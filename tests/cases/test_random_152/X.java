import java.util.*;
class Box { int w = 5; Box(int x) { w = w + x; } }
class Node {
  int v;
  Node next;
  int val2(int z) { return z + v; }
  int val(int q) { return v * 2 - q; }
}
class Sub extends Node {
  Node other;
  int val(int q) { return super.val(q) + v; }
}
class R {
  static final int K = 3 * (4 - 1);
  int a;
  boolean f;
  Node n;
  static int st(int x) { return x * K - (x >> 1); }
  int h(int x, int y) { return x - y; }
  boolean repOk() {
    return true;
  }
  //@ ensures a == \old(a) + a;
  boolean m() {
    if ((n.next.next != ((Sub) n).other.next)) {
      HashSet<Node> v1 = new HashSet<Node>();
      if ((n != n)) {
        a -= n.v;
      } else {
      }
    }
    if ((((n == n) ? a : (2147483647 ^ 0)) > a)) return (a != 7);
    ;
    if ((n != null)) {
    } else {
      a += (1 & n.v);
      f = (n.next != null);
    }
    return (n.next != n.next);
  }
}
