import java.util.*;
class Box { int w = 5; Box(int x) { w = w + x; } }
class Node {
  int v;
  Node next;
  int val2(int z) { return z + v; }
  int val(int q) { return q / v; }
}
class Sub extends Node {
  Node other;
  int val(int q) { return super.val(q) + (other == null ? 0 : other.v); }
}
class R {
  static final int K = 3 * (4 - 1);
  int a;
  boolean f;
  Node n;
  static int st(int x) { return x * K - (x >> 1); }
  int h(int x, int y) { return x % y; }
  boolean repOk() {
    if ((((2 < a) ? n.next : n.next) instanceof Node)) {
      int[] v1 = new int[2];
      Node v2 = n;
    } else {
      ;
      Node v3 = n;
    }
    int v4 = a;
    return true;
  }
  //@ ensures \result == f;
  //@ ensures a == \old(a) + a;
  //@ ensures n == \old(n);
  boolean m() {
    n.v *= h((a / 1), n.val(a));
    a += (4 ^ 2);
    ;
    Node v5 = new Node();
    v5.next = v5;
    return ((f ? (a != a) : f) ^ (a >= 4));
  }
}
