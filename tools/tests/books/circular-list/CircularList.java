package books;

/** A circularly linked list, after Goodrich, Tamassia and Goldwasser. */
public class CircularList<E> {
    private static class Node<E> {
        private E element;
        private Node<E> next;

        public Node(E e, Node<E> n) {
            element = e;
            next = n;
        }

        public E getElement() { return element; }
        public Node<E> getNext() { return next; }
        public void setNext(Node<E> n) { next = n; }
    }

    private Node<E> tail = null;
    private int size = 0;

    public CircularList() { }

    public int size() { return size; }
    public boolean isEmpty() { return size == 0; }

    public E first() {
        if (isEmpty()) return null;
        return tail.getNext().getElement();
    }

    public void rotate() {
        if (tail != null) tail = tail.getNext();
    }

    public void addFirst(E e) {
        if (size == 0) {
            tail = new Node<>(e, null);
            tail.setNext(tail);
        } else {
            Node<E> newest = new Node<>(e, tail.getNext());
            tail.setNext(newest);
        }
        size++;
    }

    public boolean repOk() {
        if (isEmpty()) return tail == null;
        if (tail == null) return false;
        Node<E> walk = tail;
        int count = 0;
        do {
            if (walk.getElement() == null && walk != tail) return false;
            walk = walk.getNext();
            count++;
            if (count > size()) return false;
        } while (walk != tail);
        return count == size;
    }
}
