package books;

public class PhoneBook {
    static class Contact {
        String name;
        int number;
        Contact next;
    }

    private Contact first;

    public Contact find(String name) {
        for (Contact c = first; c != null; c = c.next) if (c.name.equals(name)) return c;
        return null;
    }

    boolean repOk() {
        for (Contact c = first; c != null; c = c.next) {
            if (c.name == null || c.name.isEmpty() || find(c.name) != c) return false;
            if (c.next != null && c.name.compareTo(c.next.name) >= 0) return false;
        }
        return true;
    }
}
