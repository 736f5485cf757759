import java.util.*;
class Box { int w = 5; Box(int x) { w = w + x; } }
class Node {
  int v;
  Node next;
  int val2(int z) { return z + v; }
  int val(int q) { return q + v; }
}
class Sub extends Node {
  Node other;
  int val(int q) { return super.val(q) + v; }
}
class R {
  static final int K = 3 * (4 - 1);
  int a;
  boolean f;
  Node n;
  static int st(int x) { return x * K - (x >> 1); }
  int h(int x, int y) { return a + x + y; }
  boolean repOk() {
    int v1 = (R.st((1 | a)) << (a | a));
    ;
    return true;
  }
  //@ ensures a == \old(a) + a;
  //@ ensures \old(h(a, n.val(a))) <= -1;
  boolean m() {
    for (int v2 = 0; v2 < 2; v2++) {
      LinkedList<Node> v3 = new LinkedList<>();
    }
    n = n;
    n.v *= 3;
    if ((!((a * a) <= (a >>> a)))) {
      n.next.v *= a;
      LinkedList<Node> v4 = new LinkedList<>();
    } else {
    }
    a = ((Sub) n).other.val((a ^ a));
    return (n == null);
  }
}
