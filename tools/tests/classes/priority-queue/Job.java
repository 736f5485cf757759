package queues;

/** Work of some urgency. */
class Job implements Comparable<Job> {
    protected int urgency;
    private String text = "";

    Job(int urgency) {
        this.urgency = urgency;
    }

    @Override
    public int compareTo(Job other) {
        return Integer.compare(urgency, other.urgency);
    }

    @Override
    public boolean equals(Object other) {
        return other instanceof Job && ((Job) other).urgency == urgency;
    }

    @Override
    public int hashCode() {
        return Integer.hashCode(urgency);
    }
}
