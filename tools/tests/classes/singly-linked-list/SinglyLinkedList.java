package lists;

import java.util.HashSet;
import java.util.Iterator;
import java.util.NoSuchElementException;
import java.util.Set;

/**
 * A list of elements in which each node knows only the one after it. Appending takes constant time, since the last node
 * is kept as well.
 *
 * @param <E> the type of the elements
 */
public class SinglyLinkedList<E> implements Iterable<E> {

    /** One element and the rest of the list. */
    private static class Node<E> {
        final E element;
        Node<E> next;

        Node(E element) {
            this(element, null);
        }

        Node(E element, Node<E> next) {
            this.element = element;
            this.next = next;
        }
    }

    private Node<E> first;
    private Node<E> last;
    private int size = 0;
    private transient int modifications;

    public SinglyLinkedList() {
    }

    public SinglyLinkedList(Iterable<? extends E> elements) {
        for (E element : elements) {
            addLast(element);
        }
    }

    public int size() {
        return size;
    }

    public boolean isEmpty() {
        return size == 0;
    }

    public void addFirst(E element) {
        first = new Node<>(element, first);
        if (last == null) {
            last = first;
        }
        size++;
        modifications++;
    }

    public void addLast(E element) {
        Node<E> node = new Node<>(element);
        if (last == null) {
            first = last = node;
        } else {
            last = last.next = node;
        }
        size++;
        modifications++;
    }

    /** @throws NoSuchElementException if the list is empty */
    public E removeFirst() {
        if (first == null) {
            throw new NoSuchElementException("empty list");
        }
        E element = first.element;
        first = first.next;
        if (first == null) {
            last = null;
        }
        size--;
        modifications++;
        return element;
    }

    @Override
    public Iterator<E> iterator() {
        return new Iterator<E>() {
            private Node<E> node = first;

            @Override
            public boolean hasNext() {
                return node != null;
            }

            @Override
            public E next() {
                if (node == null) {
                    throw new NoSuchElementException();
                }
                E element = node.element;
                node = node.next;
                return element;
            }
        };
    }

    @Override
    public String toString() {
        StringBuilder text = new StringBuilder("[");
        String separator = "";
        for (E element : this) {
            text.append(separator).append(element);
            separator = ", ";
        }
        return text.append(']').toString();
    }

    /** Whether the representation is consistent. */
    boolean repOk() {
        if (isEmpty()) {
            return first == null && last == null;
        }
        Set<Node<E>> visited = new HashSet<>();
        Node<E> end = null;
        for (Node<E> node = first; node != null; node = node.next) {
            if (!visited.add(node)) {
                return false; // a cycle
            }
            if (node.element == null) {
                return false;
            }
            end = node;
        }
        return end == last && visited.size() == size();
    }
}
